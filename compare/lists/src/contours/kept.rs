//! The second call, after a cleaning: the contour itself, or the written part of the output.

use crate::contours::case::{Case, Kind};
use crate::contours::known::lines;
use crate::line::{length, Part, Words, MOST_NUMBERS};
use std::fmt;

/// A line has the count of points as two numbers, each at most this: how often 2^32, and the rest.
const MOST_HALF: usize = 1 << 31;

/// How many points were kept, and how many of the case's last numbers are the output's.
#[derive(Clone, Copy, Debug, PartialEq, Eq)]
pub struct Call {
    pub points: u64,
    pub out: usize,
}

impl Call {
    /// The contour if it has exactly two numbers for each point, the front of the output if the
    /// contour has more and the output enough, and otherwise an empty part of the contour.
    pub fn part(self, all: &[i32]) -> &[i32] {
        let (contour, out) = all.split_at(all.len().saturating_sub(self.out));
        let wanted = 2 * u128::from(self.points);
        let count = |row: &[i32]| row.len() as u128;
        if count(contour) == wanted {
            contour
        } else if count(contour) > wanted && count(out) >= wanted {
            &out[..wanted as usize]
        } else {
            &contour[..0]
        }
    }
}

impl fmt::Display for Call {
    fn fmt(&self, out: &mut fmt::Formatter) -> fmt::Result {
        let (high, low) = (self.points >> 32, self.points & 0xffff_ffff);
        write!(out, "{high} {low} {}", self.out)
    }
}

impl Part for Call {
    fn read(words: &mut Words) -> Result<Call, String> {
        let mut half = || length(words, MOST_HALF);
        let [high, low] = [half()? as u64, half()? as u64];
        Ok(Call {
            points: high << 32 | low,
            out: length(words, MOST_NUMBERS)?,
        })
    }
}

/// The call with so many numbers of the contour, 1, 2, 3 …, and of the output, -7, -8, -9 ….
fn kept(points: u64, contour: i32, out: i32) -> Case {
    let numbers: Vec<i32> = (1..=contour).chain((0..out).map(|i| -7 - i)).collect();
    let out = out as usize;
    Case::new(Kind::Kept(Call { points, out }), &numbers)
}

/// Up to four points kept, of a contour of up to seven numbers with an output of up to eight.
pub fn small() -> Vec<Case> {
    let mut cases = vec![];
    for contour in 0..=7 {
        for out in 0..=8 {
            cases.extend((0..=4).map(|points| kept(points, contour, out)));
        }
    }
    cases
}

/// Counts of points whose double wraps to as many numbers as there are, or whose lower half is a
/// count that there is.
pub fn wrapping() -> Vec<Case> {
    let mut cases = vec![];
    for contour in [0, 2, 6, 7] {
        for out in [0, 8] {
            for high in [1, 1 << 30, 1 << 31] {
                let rest = [0, 1, 3, 1 << 31];
                cases.extend(rest.map(|low| kept(high << 32 | low, contour, out)));
            }
        }
    }
    cases
}

/// Numbers off the grid, which are handed out as they are, and rows as long as a line can have.
pub fn long() -> Vec<Case> {
    lines(&[
        "k 0 1 0 2147483647 -2147483648",
        "k 0 1 2 1073741824 0 0 2147483647 -2147483648",
        "k 0 65536 0 0 0 1 0 1 1 0 1 *16384",
        "k 0 65536 2 7 8 *65537",
        "k 0 65535 2 7 8 *65537",
        "k 0 65537 0 7 8 *65537",
        "k 0 65536 0 7 8 *65537",
        "k 0 32768 65536 1 2 3 4 5 *26214",
        "k 0 32767 65536 1 2 3 4 5 *26214",
        "k 0 32766 65536 1 2 3 4 5 *26214",
        "k 0 32766 65532 1 2 3 4 5 *26214",
        "k 0 32766 65531 1 2 3 4 5 *26214",
        "k 0 0 65536 1 2 3 4 5 *26214",
        "k 0 0 131074 1 2 3 4 5 *26214",
        "k 0 1 131074 1 2 3 4 5 *26214",
        "k 0 2147483648 65536 1 2 3 4 5 *26214",
    ])
}

#[cfg(test)]
mod tests {
    use super::{small, wrapping, Call};
    use crate::contours::case::{Case, Kind};

    fn part(line: &str) -> Vec<i32> {
        let case: Case = line.parse().unwrap();
        let Kind::Kept(call) = case.kind else {
            panic!("{line} is no second call");
        };
        call.part(&case.of.all()).to_vec()
    }

    #[test]
    fn the_part_is_the_contour_the_front_of_the_output_or_empty() {
        for (line, expected) in [
            ("k 0 2 4 1 2 3 4 -7 -8 -9 -10", &[1, 2, 3, 4][..]),
            ("k 0 2 0 1 2 3 4", &[1, 2, 3, 4]),
            ("k 0 1 4 1 2 3 4 -7 -8 -9 -10", &[-7, -8]),
            ("k 0 1 2 1 2 3 -7 -8", &[-7, -8]),
            ("k 0 2 4 1 2 3 -7 -8 -9 -10", &[]),
            ("k 0 1 1 1 2 3 4 -7", &[]),
            ("k 0 3 8 1 2 3 4 -7 -8 -9 -10 -11 -12 -13 -14", &[]),
            ("k 0 0 2 1 2 -7 -8", &[]),
            ("k 0 0 2 -7 -8", &[]),
            ("k 2147483648 0 0", &[]),
            ("k 2147483648 1 0 1 2", &[]),
            ("k 1 1 2 1 2 -7 -8", &[]),
        ] {
            assert_eq!(part(line), expected, "{line}");
        }
    }

    #[test]
    fn each_part_is_met_and_no_double_that_wraps_has_one() {
        let lengths = |cases: Vec<Case>| {
            let part = |case: &Case| match case.kind {
                Kind::Kept(call) => call.part(&case.of.numbers).to_vec(),
                _ => panic!("{case} is no second call"),
            };
            let mut met: Vec<Vec<i32>> = cases.iter().map(part).collect();
            met.sort();
            met.dedup();
            met.len()
        };
        // Three contours of two numbers or more, three fronts of the output, and nothing.
        assert_eq!(lengths(small()), 7);
        assert_eq!(lengths(wrapping()), 1);
    }

    #[test]
    fn the_largest_count_that_a_line_can_have_is_read() {
        let most = "2147483648 2147483648 131074";
        let call: Call = crate::line::Part::read(&mut most.split(' ')).unwrap();
        assert_eq!(call.points, (1 << 63) + (1 << 31));
    }
}
