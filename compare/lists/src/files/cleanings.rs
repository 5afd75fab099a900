//! Files with what the programs that clean a job make of them: the file of the cleaned shapes, and a line for each contour
//! that went.

use super::listing::MOST_LISTED;
use super::texts::chosen;
use crate::cleaner::{contour, row, Cleaner, Contour};
use crate::point::{Point, LIMIT};
use i_shape::int::area::Area;
use requests::edition::{read, Edition, Shape, MOST_BYTES};
use requests::fates::{fates, BEHIND, KEPT};
use requests::reply::{refused_if, Reply, ROOM, TOO_MANY};
use std::path::Path;
use std::{fs, io};

/// The programs, and the cleaner of each.
const PROGRAMS: [(&str, Cleaner); 2] = [
    ("clean", Cleaner::Simplified),
    ("despike", Cleaner::Despiked),
];

/// Writes other files, about so many of the list's and one that grows into the folder, each with what both programs make
/// of it.
pub fn write_cleanings(folder: &Path, count: usize, others: &[&str]) -> io::Result<()> {
    fs::create_dir_all(folder)?;
    let mut files = chosen(count, others)?;
    files.push(growing());
    for (number, file) in files.iter().enumerate() {
        let at = |ending: &str| folder.join(format!("{number}.{ending}"));
        fs::write(at("set"), file)?;
        for (name, cleaner) in PROGRAMS {
            let refused = |reply| (vec![], format!("refused {reply}\n"));
            let (cleaned, words) = tidied(cleaner, file).unwrap_or_else(refused);
            fs::write(at(&format!("{name}.file")), cleaned)?;
            fs::write(at(&format!("{name}.words")), words)?;
        }
    }
    Ok(())
}

/// The file of the cleaned shapes in the same edition, and what is said of those that went, or the first refusal that is
/// due: that of the reader, 5 for more points than there is room for, 2 for a cleaned file that is too long.
fn tidied(cleaner: Cleaner, file: &[u8]) -> Reply<(Vec<u8>, String)> {
    let (edition, shapes) = read(file)?;
    refused_if(shapes.concat().concat().len() > MOST_LISTED, ROOM)?;
    let shapes: Vec<Vec<Contour>> = shapes.iter().map(contours).collect();
    let kept: Vec<Shape> = cleaner
        .clean_shapes(&shapes)
        .kept
        .iter()
        .map(|shape| shape.iter().map(points).collect())
        .collect();
    let cleaned = edition.write(&kept);
    refused_if(cleaned.len() > MOST_BYTES, TOO_MANY)?;
    Ok((cleaned, words(cleaner, &shapes)))
}

fn contours(shape: &Shape) -> Vec<Contour> {
    let contours = shape.iter();
    contours.map(|points| contour(&points.concat())).collect()
}

fn points(contour: &Contour) -> Vec<Point> {
    row(contour).chunks_exact(2).map(|p| [p[0], p[1]]).collect()
}

/// A line for each contour that went, and why.
fn words(cleaner: Cleaner, shapes: &[Vec<Contour>]) -> String {
    let fates = fates(shapes, |contour| cleaner.collapses(contour));
    let contours = shapes.concat();
    let mut words = String::new();
    for ((number, contour), fate) in (1..).zip(&contours).zip(fates) {
        if fate == KEPT {
            continue;
        }
        let why = match fate {
            BEHIND => "behind a collapsed outline",
            _ => "collapsed",
        };
        let area = match contour.len() {
            0 => "no area".to_string(),
            _ => format!("doubled area {}", contour.area_two()),
        };
        words += &format!("contour {number} dropped: {why}, {area}\n");
    }
    words
}

/// A file of edition 2 that grows past the most bytes when a straight point goes: the step over it needs a bit more, and
/// so do all others of its contour.
fn growing() -> Vec<u8> {
    let wide = vec![[-LIMIT, 0], [LIMIT, 1], [-LIMIT, 2]];
    let mut long: Vec<Point> = vec![[-LIMIT, 0], [0, 0], [LIMIT, 0]];
    long.extend((1..=7892).map(|y| [LIMIT - y % 2, y]));
    let mut shapes: Vec<Shape> = vec![vec![wide]; 99];
    shapes.push(vec![long]);
    Edition::Two.write(&shapes)
}

#[cfg(test)]
mod tests {
    use super::{growing, tidied};
    use crate::cleaner::Cleaner;
    use requests::edition::Edition;

    #[test]
    fn a_file_that_grows_is_refused_only_where_straight_points_go() {
        let file = growing();
        assert_eq!(file.len(), 63_840);
        assert_eq!(tidied(Cleaner::Simplified, &file), Err(2));
        assert_eq!(tidied(Cleaner::Despiked, &file), Ok((file, String::new())));
    }

    #[test]
    fn no_contour_goes_without_a_word() {
        let line = vec![[0, 0], [1, 0], [2, 0]];
        let square = vec![[0, 0], [0, 4], [4, 4], [4, 0]];
        let shapes = vec![
            vec![square.clone(), line.clone()],
            vec![line, square, vec![]],
        ];
        let (file, words) = tidied(Cleaner::Simplified, &Edition::One.write(&shapes)).unwrap();
        assert_eq!(file, Edition::One.write(&[vec![shapes[0][0].clone()]]));
        let lines: Vec<_> = words.lines().collect();
        assert_eq!(
            lines,
            [
                "contour 2 dropped: collapsed, doubled area 0",
                "contour 3 dropped: collapsed, doubled area 0",
                "contour 4 dropped: behind a collapsed outline, doubled area -32",
                "contour 5 dropped: behind a collapsed outline, no area",
            ]
        );
    }
}
