//! One line of the list of comparisons.

use crate::line::{self, length, Part, Row, Words, MOST_NUMBERS, NO_KIND};
use crate::point::Point;
use crate::sets::flat::{Record, Set};
use std::fmt;

/// The first byte of a line names its kind.
const COMPARED: &str = "d";

/// The longest listing that can be lent.
pub const LONGEST: usize = 550;

/// Two sets in one: the second's ranges stand where a set has its shapes, and its numbers behind the first's.
pub type Case = line::Case<Compared, Set>;

/// How many entries the listing has, and how many of the numbers are the second set's.
#[derive(Clone, Copy, Debug, PartialEq, Eq)]
pub struct Compared {
    pub listing: usize,
    pub others: usize,
}

impl fmt::Display for Compared {
    fn fmt(&self, out: &mut fmt::Formatter) -> fmt::Result {
        write!(out, "{COMPARED} {} {}", self.listing, self.others)
    }
}

impl Part for Compared {
    fn read(words: &mut Words) -> Result<Compared, String> {
        match words.next() {
            Some(COMPARED) => Ok(Compared {
                listing: length(words, LONGEST)?,
                others: length(words, MOST_NUMBERS)?,
            }),
            _ => Err(NO_KIND.into()),
        }
    }
}

/// A set: points, and the ranges of its contours.
#[derive(Clone, Debug, Default, PartialEq, Eq)]
pub struct Flat {
    pub points: Vec<i32>,
    pub ranges: Vec<Record>,
}

impl Flat {
    pub fn of(contours: &[Vec<Point>]) -> Flat {
        let set = Set::of(&[contours.to_vec()]);
        Flat {
            points: set.points.numbers,
            ranges: set.contours,
        }
    }
}

/// The comparison of two sets, with a listing of so many entries.
pub fn compared(first: &Flat, second: &Flat, listing: usize) -> Case {
    Case {
        kind: Compared {
            listing: listing.min(LONGEST),
            others: second.points.len(),
        },
        of: Set {
            contours: first.ranges.clone(),
            shapes: second.ranges.clone(),
            points: Row::wound(&[&first.points[..], &second.points].concat(), 1),
        },
    }
}

/// The comparison of two sets of contours, with a listing that is longer or shorter than the need by so much.
pub fn beside(first: &[Vec<Point>], second: &[Vec<Point>], offset: isize) -> Case {
    let need = first.len().max(second.len());
    compared(
        &Flat::of(first),
        &Flat::of(second),
        need.saturating_add_signed(offset),
    )
}

#[cfg(test)]
mod tests {
    use super::Case;
    use crate::line::tests::{refused, written_as_read};

    #[test]
    fn a_line_is_read_as_it_was_written() {
        written_as_read::<Case>(&[
            "d 0 0 0 0",
            "d 1 6 1 0 3 1 0 3 0 0 4 0 0 4 4 0 0 4 0 0",
            "d 550 65536 1 0 32768 1 0 32768 0 0 *65536",
        ]);
    }

    #[test]
    fn a_damaged_line_is_refused() {
        refused::<Case>(&["d", "d 0", "d 0 0", "d 0 0 0", "d 551 0 0 0", "c 0 0"]);
        refused::<Case>(&["d 0 -1 0 0", "d 0 131075 0 0", "d 0 0 1 0 0"]);
    }
}
