//! Pairs of files with what is said of them, for runs of the program that compares two files.

use super::damaged::damage;
use super::listing::{listed, MOST_LISTED};
use crate::comparing::random::{altered, contour};
use crate::point::{Point, NARROW};
use crate::rng::Rng;
use requests::difference::{line, Line};
use requests::edition::{Edition, Shape, MOST_BYTES, MOST_CONTOURS};
use std::path::Path;
use std::{fs, io};

type Pair = (Vec<u8>, Vec<u8>);
type Set = Vec<Vec<Point>>;

/// Writes pairs of files into the folder, each with what is said of it: the chosen ones, and so many random ones.
pub fn write_changes(folder: &Path, count: usize) -> io::Result<()> {
    fs::create_dir_all(folder)?;
    let rng = &mut Rng::new(803);
    let random = (0..count).map(|_| pair(rng));
    for ((first, second), number) in chosen().into_iter().chain(random).zip(1..) {
        let named = |end: &str| folder.join(format!("{number}.{end}"));
        fs::write(named("said"), said(&first, &second))?;
        fs::write(named("first"), first)?;
        fs::write(named("second"), second)?;
    }
    Ok(())
}

/// What is said of two files: a line for each contour that is not the same, and the counts; or which is refused first.
pub fn said(first: &[u8], second: &[u8]) -> String {
    let (first, second) = match (listed(first), listed(second)) {
        (Err(reply), _) => return format!("first: refused {reply}\n"),
        (_, Err(reply)) => return format!("second: refused {reply}\n"),
        (Ok((_, first)), Ok((_, second))) => (first, second),
    };
    let mut said = String::new();
    let mut counts = [0; 5];
    for place in 0..first.len().max(second.len()) {
        let line = match (first.get(place), second.get(place)) {
            (Some(first), Some(second)) => line(first, second),
            (Some(_), None) => Line::OnlyFirst,
            (None, _) => Line::OnlySecond,
        };
        counts[line.record()[0]] += 1;
        if let Some(change) = change(line) {
            said += &format!("contour {} {change}\n", place + 1);
        }
    }
    let [same, elsewhere, different, in_first, in_second] = counts;
    said += &format!("the same: {same}, started elsewhere: {elsewhere}, different: {different}, ");
    said + &format!("only in the first: {in_first}, only in the second: {in_second}\n")
}

/// In words, with points counted from 1; nothing where it is the same.
fn change(line: Line) -> Option<String> {
    Some(match line {
        Line::Same => return None,
        Line::Elsewhere(start) => {
            let point = start + 1;
            format!("starts elsewhere: its first point is point {point} of the second")
        }
        Line::Different(place) => format!("differs from point {} on", place + 1),
        Line::OnlyFirst => "is only in the first".to_string(),
        Line::OnlySecond => "is only in the second".to_string(),
    })
}

/// The file of these contours, of which some begin a shape.
fn file(contours: &[Vec<Point>], rng: &mut Rng) -> Vec<u8> {
    let mut shapes: Vec<Shape> = vec![];
    for contour in contours {
        match shapes.last_mut() {
            Some(shape) if rng.below(3) > 0 => shape.push(contour.clone()),
            _ => shapes.push(vec![contour.clone()]),
        }
    }
    rng.pick(&Edition::BOTH).write(&shapes)
}

/// A set and what became of it, or two that have little to do with each other; now and then a file is damaged.
fn pair(rng: &mut Rng) -> Pair {
    let first = set(rng);
    let second = match rng.below(5) {
        0 => set(rng),
        _ => altered(&first, rng),
    };
    let mut files = [&first, &second].map(|set| file(set, rng));
    if rng.below(8) == 0 {
        damage(&mut files[rng.below(2)], rng);
    }
    let [first, second] = files;
    (first, second)
}

/// On the narrow grid but for one in eight.
fn set(rng: &mut Rng) -> Set {
    let wide = rng.below(8) == 0;
    let fits = |contour: &Vec<Point>| wide || contour.concat().iter().all(|n| n.abs() <= NARROW);
    let contours = std::iter::repeat_with(|| contour(rng)).filter(fits);
    let contours: Set = contours.take(24).collect();
    contours[..rng.below(9) + rng.below(3) * 8].to_vec()
}

/// Pairs at the ends of what is read: no contours, all that a file can have, all points, one more, and damage.
fn chosen() -> Vec<Pair> {
    let [one, two] = Edition::BOTH;
    let of = |edition: Edition, set: &Set| match set.is_empty() {
        true => edition.write(&[]),
        false => edition.write(std::slice::from_ref(set)),
    };
    let stair = |count: usize| -> Vec<Point> { (0..count as i32).map(|x| [x, x % 2]).collect() };
    let turned = |count: usize, start: usize| {
        let mut points = stair(count);
        points.rotate_left(start);
        points
    };
    let many = vec![vec![[0, 0], [4, 0]]; MOST_CONTOURS];
    let back = vec![vec![[4, 0], [0, 0]]; MOST_CONTOURS];
    let none: Set = vec![];
    let full = vec![stair(MOST_LISTED)];
    let over = vec![stair(MOST_LISTED + 1)];
    vec![
        (of(one, &none), of(two, &none)),
        (of(two, &many), of(two, &back)),
        (of(two, &back), of(two, &none)),
        (of(one, &none), of(two, &many)),
        (of(one, &vec![vec![]; MOST_CONTOURS]), of(two, &many)),
        (of(two, &full), of(two, &vec![turned(MOST_LISTED, 1)])),
        (of(two, &vec![turned(MOST_LISTED, 8191)]), of(two, &full)),
        (of(two, &full), of(one, &vec![stair(MOST_LISTED - 1)])),
        (of(two, &over), of(two, &full)),
        (of(two, &full), of(two, &over)),
        (vec![], vec![]),
        (of(one, &none), vec![0x30, 0]),
        (vec![0x10; MOST_BYTES + 1], vec![0x30, 0]),
        (of(one, &none), vec![0x10; MOST_BYTES + 1]),
        (vec![0x10, 1, 0, 0], vec![]),
        (vec![0x20, 1, 0x80, 0, 8], of(one, &none)),
        (of(two, &none), vec![0x20, 1, 0x80, 0, 5]),
    ]
}

#[cfg(test)]
mod tests {
    use super::{chosen, said};
    use requests::edition_1::write;

    const A: [i32; 2] = [0, 0];
    const B: [i32; 2] = [4, 0];
    const C: [i32; 2] = [0, 4];

    #[test]
    fn every_kind_is_said_in_words() {
        let first = write(&[vec![vec![A, B, C], vec![A, B, C]], vec![vec![A, B, C]]]);
        let second = write(&[vec![vec![A, B, C], vec![B, C, A], vec![A, C]]]);
        let third = write(&[]);
        assert_eq!(
            said(&first, &second),
            "contour 2 starts elsewhere: its first point is point 3 of the second\n\
             contour 3 differs from point 2 on\n\
             the same: 1, started elsewhere: 1, different: 1, only in the first: 0, only in the second: 0\n"
        );
        let only = |whose: &str| {
            let line = |number| format!("contour {number} is only in the {whose}\n");
            (1..4).map(line).collect::<String>()
        };
        assert!(said(&first, &third).starts_with(&only("first")));
        assert!(said(&third, &first).starts_with(&only("second")));
        assert!(said(&third, &first).ends_with("only in the second: 3\n"));
    }

    #[test]
    fn the_first_file_is_refused_before_the_second() {
        assert_eq!(said(&[], &[0x30, 0]), "first: refused 10\n");
        assert_eq!(said(&[0x10, 0], &[0x30, 0]), "second: refused 9\n");
    }

    #[test]
    fn the_chosen_pairs_have_every_refusal_but_that_of_the_grid() {
        let texts: Vec<String> = chosen().iter().map(|(a, b)| said(a, b)).collect();
        for whose in ["first", "second"] {
            for reply in [2, 5] {
                assert!(texts.contains(&format!("{whose}: refused {reply}\n")));
            }
        }
        assert!(texts.iter().any(|text| text.contains("is point 8192 of")));
        assert!(texts.iter().any(|text| text.contains("from point 8192 on")));
    }
}
