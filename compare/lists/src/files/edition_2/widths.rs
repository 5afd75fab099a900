//! Every width, with differences at both of its ends, and every other width than the smallest beside them.

use super::super::case::Case;
use super::damaged::in_turn;
use super::raw::{file_of, one, with_width, Contour, Place};
use crate::point::LIMIT;
use requests::edition_2::WIDEST;

/// The differences at the ends of a width, and the next that are too large for the one below.
fn ends(width: usize) -> Vec<i64> {
    let end = 1i64 << (width - 1);
    match width {
        1 => vec![-1, 0],
        _ => vec![-end, end - 1, -end / 2 - 1, end / 2],
    }
}

/// A step of so much along x, and along y between two others. It begins where the grid is widest ahead of it.
fn steps(difference: i64) -> [Contour; 2] {
    let start = match difference.abs() {
        0..0x2000_0000 => 7,
        _ => -difference.signum() * i64::from(LIMIT),
    };
    let places: [Place; 2] = [[start, -8], [start + difference, -8]];
    let across = [
        [5, start],
        [5, start],
        [5, start + difference],
        [4, start + difference],
    ];
    [Contour::new(true, &places), Contour::new(true, &across)]
}

pub fn both_ends() -> Vec<Case> {
    let ends = (1..=WIDEST).flat_map(ends);
    in_turn(ends.flat_map(steps).map(|contour| one(&contour)).collect())
}

/// Each of those in the width below and above, and in none, in 33 bits and in 63: written so, and said so of bits that
/// are as they were.
pub fn others() -> Vec<Case> {
    let mut files = vec![];
    for width in 1..=WIDEST {
        for difference in ends(width).into_iter().take(2) {
            let [contour, across] = steps(difference);
            for contour in [&contour, &across] {
                let file = one(contour);
                files.extend([width - 1, width + 1].map(|other| one(&contour.in_width(other))));
                files.extend([width - 1, width + 1].map(|other| with_width(&file, 16, other)));
            }
            if width % 8 < 2 {
                files.extend([0, 33, 63].map(|other| one(&contour.in_width(other))));
                files.extend([0, 33, 63].map(|other| with_width(&one(&contour), 16, other)));
            }
        }
    }
    in_turn(files)
}

/// Contours of no point and of one, in every width, alone and behind another.
pub fn without_differences() -> Vec<Case> {
    let before = Contour::new(true, &[[5, 6], [5, 7]]);
    let mut files = vec![];
    for places in [&[][..], &[[-5, 9]]] {
        let contour = Contour::new(true, places);
        for width in [0, 1, 2, 3, 31, 32, 33, 62, 63] {
            let contour = contour.in_width(width);
            let file = one(&contour);
            files.push([&file[..], &[0]].concat());
            files.push(file[..file.len() - 1].to_vec());
            files.push(file);
            files.push(file_of(&[before.clone(), contour]));
        }
    }
    in_turn(files)
}
