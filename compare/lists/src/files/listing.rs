//! Files with their listings, for runs of the program that lists a file.

use super::large::MOST_IN_A_FILE;
use crate::cleaner::{contour, Cleaner};
use crate::point::{Point, LIMIT, NARROW};
use i_shape::int::area::Area;
use requests::edition::{read, Edition, Shape, MOST_BYTES, MOST_CONTOURS, MOST_IN_ONE};
use requests::edition_1::write;
use requests::edition_2;
use requests::reply::{refused_if, Reply, ROOM};
use std::path::Path;
use std::{fs, io};

/// The most points that are listed.
pub const MOST_LISTED: usize = 8192;

/// Writes each file and its listing into the folder.
pub fn write_listings(folder: &Path) -> io::Result<()> {
    fs::create_dir_all(folder)?;
    for (name, file) in [files(), second_files()].concat() {
        fs::write(folder.join(name).with_extension("set"), &file)?;
        fs::write(folder.join(name).with_extension("listing"), listing(&file))?;
    }
    Ok(())
}

/// What is listed of a file: each contour cleaned alone by the original's walk, the collinear one in edition 1 and the
/// despiking one in edition 2.
pub fn listing(file: &[u8]) -> String {
    let (edition, contours) = match listed(file) {
        Ok(listed) => listed,
        Err(reply) => return format!("refused {reply}\n"),
    };
    let cleaner = match edition {
        Edition::One => Cleaner::Simplified,
        Edition::Two => Cleaner::Despiked,
    };
    let mut listing = String::from("contour before after decisions area2\n");
    for (points, number) in contours.iter().zip(1..) {
        listing += &format!("{number} {}\n", line(cleaner, points));
    }
    listing
}

/// The contours of a file, or the first refusal that is due: that of the reader, or 5 for more points than there is
/// room for.
pub(super) fn listed(file: &[u8]) -> Reply<(Edition, Vec<Vec<Point>>)> {
    let (edition, shapes) = read(file)?;
    let contours = shapes.concat();
    refused_if(contours.concat().len() > MOST_LISTED, ROOM)?;
    Ok((edition, contours))
}

fn line(cleaner: Cleaner, points: &[Point]) -> String {
    let contour = contour(&points.concat());
    let walked = cleaner.walk(&contour);
    let after = walked.kept.map(|kept| kept.len().to_string());
    let area = (!contour.is_empty()).then(|| contour.area_two().to_string());
    let none = || "-".to_string();
    format!(
        "{} {} {} {}",
        points.len(),
        after.unwrap_or_else(none),
        walked.decisions,
        area.unwrap_or_else(none)
    )
}

/// Document 01's contours W1 to W12 which differ, its file's first.
const WORKED: &[&[Point]] = &[
    &[[0, 0], [2, 0], [4, 0], [4, 4], [0, 4]],
    &[],
    &[[0, 0], [1, 0], [2, 0]],
    &[[0, 0], [4, 0], [0, 4]],
    &[[0, 0], [4, 0], [4, 4], [4, 8], [4, 4], [0, 4]],
    &[[0, 0], [0, 0], [4, 0], [0, 4]],
    &[[0, 10], [6, -8], [-10, 3], [10, 3], [-6, -8]],
    &[[0, 0], [4, 0], [4, 4], [0, 4]],
    &[[0, 0], [4, 4], [4, 0], [0, 4]],
    &[[0, 0], [0, 1], [1, 0]],
    &[[0, 0], [4, 0], [4, 0]],
];

/// The whole narrow grid, clockwise.
const GRID: [Point; 4] = [
    [-NARROW, -NARROW],
    [-NARROW, NARROW],
    [NARROW, NARROW],
    [NARROW, -NARROW],
];

/// The file of one contour.
fn one(points: &[Point]) -> Vec<u8> {
    write(&[vec![points.to_vec()]])
}

fn longer(mut file: Vec<u8>, bytes: usize) -> Vec<u8> {
    file.resize(bytes, 0);
    file
}

/// A stair of so many points, of which every third lies on a straight.
fn stair(count: usize) -> Vec<Point> {
    let point = |k: i32| [k / 3, k / 3 * 2 + k % 3];
    (0..count as i32).map(point).collect()
}

fn files() -> Vec<(&'static str, Vec<u8>)> {
    let worked: Vec<Vec<Point>> = WORKED.iter().map(|contour| contour.to_vec()).collect();
    let off = one(&[[0, 0], [NARROW + 1, 0]]);
    let squares: Vec<Shape> = vec![vec![WORKED[7].to_vec()]; MOST_CONTOURS / 3];
    let wound = [1, 4, 8].map(|times| GRID.repeat(times));
    let straight: Vec<Point> = (0..MOST_IN_A_FILE as i32).map(|x| [x, x / 8190]).collect();
    let full = [vec![stair(MOST_IN_A_FILE)], vec![vec![]; 2]];
    vec![
        ("worked", one(WORKED[0])),
        (
            "worked_all",
            write(&[worked[..4].to_vec(), worked[4..].to_vec()]),
        ),
        ("no_contours", write(&[])),
        ("empty_contour", one(&[])),
        ("one_point", one(&[[-5, 7]])),
        ("two_points", one(&[[0, 0], [3, 4]])),
        ("collapsed", one(WORKED[2])),
        ("grid_wound", write(&[wound.to_vec()])),
        ("contours_4095", write(&[vec![vec![]; MOST_CONTOURS]])),
        ("squares", write(&squares)),
        ("points_8191", one(&stair(MOST_IN_A_FILE))),
        ("points_8191_straight", one(&straight)),
        ("bytes_65536", write(&full)),
        ("refused_2", longer(one(WORKED[0]), MOST_BYTES + 1)),
        ("refused_2_full", longer(write(&full), MOST_BYTES + 1)),
        ("refused_2_edition", vec![0x20; MOST_BYTES + 1]),
        ("refused_3", off.clone()),
        ("refused_3_low", one(&[[0, -NARROW - 1]])),
        ("refused_9", vec![0x30, 0]),
        (
            "refused_9_whole",
            [vec![0x30], one(WORKED[0])[1..].to_vec()].concat(),
        ),
        ("refused_10_empty", vec![]),
        ("refused_10_byte", vec![0x20]),
        ("refused_10_header", vec![0x10, 1, 0x80]),
        ("refused_10_points", one(WORKED[0])[..43].to_vec()),
        ("refused_10_left_over", longer(one(WORKED[0]), 45)),
        ("refused_10_off", longer(off, 21)),
        ("refused_10_long", longer(one(WORKED[0]), MOST_BYTES)),
        ("refused_11", vec![0x10, 1, 0, 1]),
        ("refused_11_whole", vec![0x10, 1, 0, 0]),
    ]
}

/// The edition 2 file of one contour.
fn second(points: &[Point]) -> Vec<u8> {
    edition_2::write(&[vec![points.to_vec()]])
}

/// Files of edition 2.
fn second_files() -> Vec<(&'static str, Vec<u8>)> {
    let worked: Vec<Vec<Point>> = WORKED.iter().map(|contour| contour.to_vec()).collect();
    let wide: Vec<Point> = GRID
        .map(|point| point.map(|end| end.signum() * LIMIT))
        .to_vec();
    let wound = [1, 2].map(|times| wide.repeat(times));
    let straight: Vec<Point> = (0..MOST_LISTED as i32).map(|x| [x, x / 8191]).collect();
    let parted = [stair(MOST_LISTED - 5), stair(5)].to_vec();
    let still = vec![vec![[7, -8]; MOST_IN_ONE]; 2];
    let mut filled = second(WORKED[0]);
    *filled.last_mut().expect("a byte") |= 1;
    vec![
        ("second_worked", second(WORKED[0])),
        (
            "second_worked_all",
            edition_2::write(&[worked[..4].to_vec(), worked[4..].to_vec()]),
        ),
        ("second_no_contours", edition_2::write(&[])),
        ("second_empty_contour", second(&[])),
        ("second_one_point", second(&[[-5, 7]])),
        ("second_grid_wound", edition_2::write(&[wound.to_vec()])),
        (
            "second_contours_4095",
            edition_2::write(&[vec![vec![]; MOST_CONTOURS]]),
        ),
        ("second_points_8192", second(&stair(MOST_LISTED))),
        ("second_points_8192_parted", edition_2::write(&[parted])),
        ("second_points_8192_straight", second(&straight)),
        ("refused_5", second(&stair(MOST_LISTED + 1))),
        ("refused_5_most", edition_2::write(&[still])),
        ("refused_3_second", {
            let mut off = vec![[0, 0]; MOST_LISTED + 1];
            off[MOST_LISTED] = [0, LIMIT + 1];
            second(&off)
        }),
        ("refused_10_second", second(WORKED[0])[..16].to_vec()),
        ("refused_11_second", vec![0x20, 1, 0, 0, 4]),
        ("refused_15", vec![0x20, 1, 0x80, 0, 8]),
        ("refused_16", filled),
    ]
}

#[cfg(test)]
mod tests {
    use super::{listing, one, second, stair, write, MOST_LISTED, WORKED};

    #[test]
    fn tack_places_of_edition_2_stay() {
        let heading = "contour before after decisions area2\n";
        assert_eq!(
            listing(&second(WORKED[0])),
            format!("{heading}1 5 5 5 32\n")
        );
        assert_eq!(
            listing(&second(WORKED[4])),
            format!("{heading}1 6 4 9 32\n")
        );
        assert_eq!(
            listing(&second(WORKED[5])),
            format!("{heading}1 4 3 4 16\n")
        );
    }

    #[test]
    fn there_is_room_for_8192_points() {
        assert!(listing(&second(&stair(MOST_LISTED))).contains("\n1 8192 8192 8192 "));
        assert_eq!(listing(&second(&stair(MOST_LISTED + 1))), "refused 5\n");
    }

    #[test]
    fn the_file_of_document_01_is_listed_as_it_says() {
        let file = one(WORKED[0]);
        assert_eq!(file[..4], [0x10, 0x01, 0x80, 0x05]);
        assert_eq!(
            listing(&file),
            "contour before after decisions area2\n1 5 4 6 32\n"
        );
    }

    #[test]
    fn short_contours_collapse_and_an_empty_one_has_no_area() {
        let file = write(&[vec![vec![], vec![[0, 0], [3, 4]], WORKED[2].to_vec()]]);
        assert_eq!(
            listing(&file),
            "contour before after decisions area2\n1 0 - 0 -\n2 2 - 0 0\n3 3 - 1 0\n"
        );
        assert_eq!(
            listing(&[0x10, 0]),
            "contour before after decisions area2\n"
        );
        assert_eq!(listing(&[]), "refused 10\n");
    }
}
