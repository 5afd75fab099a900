//! One line of the list of contours.

use crate::cleaner::Cleaner;
use crate::contours::kept;
use crate::contours::rows::{Lengths, MOST_OUT, MOST_SCRATCH};
use crate::line::{self, length, next_number, Part, Row, Words, NO_KIND};
use crate::point::Point;
use crate::scratch;
use std::fmt;

/// The first byte of a line names its kind.
const CONTOUR: &str = "c";
const CLEANING: &str = "w";
const KEPT: &str = "k";
const LOCATED: &str = "l";

/// What is asked of a contour, and the contour's row.
pub type Case = line::Case<Kind, Row>;

#[derive(Clone, Copy, Debug, PartialEq, Eq)]
pub enum Kind {
    /// Every question about the contour; one is about a point.
    Contour { asked: Point },
    /// One cleaning, with rows of these lengths.
    Cleaning { cleaner: Cleaner, lent: Lengths },
    /// What a cleaning kept; the output stands behind the contour.
    Kept(kept::Call),
    /// Where a point lies.
    Located { asked: Point },
}

impl Case {
    pub fn new(kind: Kind, numbers: &[i32]) -> Case {
        let of = Row::wound(numbers, 1);
        Case { kind, of }
    }

    pub fn contour(asked: Point, points: &[Point]) -> Case {
        Case::new(Kind::Contour { asked }, &points.concat())
    }

    pub fn located(asked: Point, points: &[Point]) -> Case {
        Case::new(Kind::Located { asked }, &points.concat())
    }

    pub fn wound(mut self, times: usize) -> Case {
        self.of.times = times;
        self
    }
}

impl fmt::Display for Kind {
    fn fmt(&self, out: &mut fmt::Formatter) -> fmt::Result {
        match *self {
            Kind::Contour { asked: [x, y] } => write!(out, "{CONTOUR} {x} {y}"),
            Kind::Cleaning { cleaner, lent } => {
                write!(out, "{CLEANING} {} {lent}", cleaner.number())
            }
            Kind::Kept(call) => write!(out, "{KEPT} {call}"),
            Kind::Located { asked: [x, y] } => write!(out, "{LOCATED} {x} {y}"),
        }
    }
}

/// The kind, and the numbers that stand before the contour's.
impl Part for Kind {
    fn read(words: &mut Words) -> Result<Kind, String> {
        match words.next() {
            Some(CONTOUR) => Ok(Kind::Contour {
                asked: [next_number(words)?, next_number(words)?],
            }),
            Some(CLEANING) => Ok(Kind::Cleaning {
                cleaner: Cleaner::read(words)?,
                lent: Lengths {
                    scratch: scratch::Lengths::read(words, MOST_SCRATCH)?,
                    out: length(words, MOST_OUT)?,
                },
            }),
            Some(KEPT) => Ok(Kind::Kept(kept::Call::read(words)?)),
            Some(LOCATED) => Ok(Kind::Located {
                asked: [next_number(words)?, next_number(words)?],
            }),
            _ => Err(NO_KIND.into()),
        }
    }
}

#[cfg(test)]
mod tests {
    use super::Case;
    use crate::line::tests::{refused, written_as_read};

    #[test]
    fn a_line_is_read_as_it_was_written() {
        written_as_read::<Case>(&[
            "c 1 1 0 0 4 0 0 4",
            "c 0 0",
            "c -1 2 3",
            "c 0 0 -5 7 *16384",
            "w 0 3 3 3 6 0 0 4 0 0 4",
            "w 1 0 0 0 0",
            "w 1 65600 0 65600 131200 -5 7 *16384",
            "k 0 2 3 1 2 3 4 -7 -8 -9",
            "k 2147483648 2147483648 131074",
            "l 1 1 0 0 4 0 0 4",
            "l 0 0",
            "l 1073741824 -2 -5 7 *16384",
        ]);
    }

    #[test]
    fn a_row_is_its_numbers_repeated() {
        for line in ["c 0 0 1 2 3 *2", "w 0 3 3 3 6 1 2 3 *2"] {
            let case: Case = line.parse().unwrap();
            assert_eq!(case.of.all(), [1, 2, 3, 1, 2, 3]);
        }
    }

    #[test]
    fn a_damaged_line_is_refused() {
        refused::<Case>(&["", "d 0 0", "c", "c 0", "c  0 0", "c 0 +1"]);
        refused::<Case>(&["c 0 0 2147483648", "c 0 0 *0", "c 0 0 1 *131075"]);
        refused::<Case>(&["c 0 0 1 *2 3", "c *2", "c 0 0 1 *+2", "w", "w 0 1 1 1"]);
        refused::<Case>(&["w 2 1 1 1 2", "w 0 -1 1 1 2", "w 0 65601 1 1 2"]);
        refused::<Case>(&["w 0 1 65601 1 2", "w 0 1 1 65601 2", "w 0 1 1 1 131201"]);
        refused::<Case>(&["k", "k 0 0", "k 2147483649 0 0", "k 0 2147483649 0"]);
        refused::<Case>(&["k 0 0 131075", "k 0 -1 0"]);
        refused::<Case>(&["l", "l 0", "l 0 0 x", "l 0 0 1 *131075"]);
    }
}
