//! The rows lent to a cleaning: as they are before the call, and as document 01 has
//! them after it.

use crate::checksum::{checksum, part};
use crate::cleaner::{contour, row, Cleaner, Walked};
use crate::scratch::{self, Scratch};
use requests::reply::{domain, refused_if, Reply, COLLAPSED, DONE, ROOM};
use std::fmt;

/// The longest rows that can be lent.
pub const MOST_SCRATCH: usize = 65_600;
pub const MOST_OUT: usize = 131_200;

/// How many entries the rows have.
#[derive(Clone, Copy, Debug, PartialEq, Eq)]
pub struct Lengths {
    pub scratch: scratch::Lengths,
    pub out: usize,
}

impl fmt::Display for Lengths {
    fn fmt(&self, out: &mut fmt::Formatter) -> fmt::Result {
        write!(out, "{} {}", self.scratch, self.out)
    }
}

#[derive(Debug, PartialEq, Eq)]
pub struct Rows {
    pub scratch: Scratch,
    pub out: Vec<i32>,
}

/// What a cleaning answers, and the rows after it.
#[derive(Debug, PartialEq, Eq)]
pub struct Cleaning {
    pub reply: u8,
    pub points: usize,
    pub decisions: usize,
    pub turns: usize,
    pub rows: Rows,
}

pub fn answer(cleaner: Cleaner, lent: Lengths, points: &[i32]) -> Cleaning {
    let rows = Rows::with_canaries(lent);
    match refusal(points, lent) {
        Err(reply) => Cleaning {
            reply,
            points: 0,
            decisions: 0,
            turns: 0,
            rows,
        },
        Ok(()) => rows.after(points.len() / 2, cleaner.walk(&contour(points))),
    }
}

/// The first refusal that is due: 1, 2, 3, 4, 5.
fn refusal(points: &[i32], lent: Lengths) -> Reply<()> {
    domain(points)?;
    lent.scratch.enough_for(points.len() / 2)?;
    refused_if(lent.out < points.len(), ROOM)
}

impl Rows {
    fn with_canaries(lent: Lengths) -> Rows {
        Rows {
            scratch: Scratch::with_canaries(lent.scratch),
            out: vec![-7; lent.out],
        }
    }

    /// After the walk of `n` points so many entries of the scratch are 0, and the kept
    /// points stand in front of the output.
    fn after(mut self, n: usize, walked: Walked) -> Cleaning {
        let kept = walked.kept.as_ref().map(row).unwrap_or_default();
        self.out[..kept.len()].copy_from_slice(&kept);
        Cleaning {
            reply: if walked.kept.is_some() {
                DONE
            } else {
                COLLAPSED
            },
            points: kept.len() / 2,
            decisions: walked.decisions,
            turns: walked.turns,
            rows: Rows {
                scratch: self.scratch.zeroed(n),
                ..self
            },
        }
    }
}

/// Last, what the second call hands out: the points kept, which stand in front of the output too.
impl fmt::Display for Cleaning {
    fn fmt(&self, out: &mut fmt::Formatter) -> fmt::Result {
        let rows = &self.rows;
        write!(
            out,
            "{} {} {} {} {} {} {}",
            self.reply,
            self.points,
            self.decisions,
            self.turns,
            rows.scratch,
            checksum(&rows.out),
            part(&rows.out[..2 * self.points]),
        )
    }
}

#[cfg(test)]
mod tests {
    use super::{answer, scratch, Lengths, Rows};
    use crate::contours::case::{Case, Kind};

    fn asked(line: &str) -> super::Cleaning {
        let case: Case = line.parse().unwrap();
        let Kind::Cleaning { cleaner, lent } = case.kind else {
            panic!("{line} is no cleaning");
        };
        answer(cleaner, lent, &case.of.all())
    }

    #[test]
    fn the_first_refusal_that_is_due_is_given_and_changes_nothing() {
        for (line, reply) in [
            ("w 0 0 0 0 0 1073741824", 1),
            ("w 0 0 0 0 0 1073741824 0 *65537", 2),
            ("w 0 0 0 0 0 1073741824 0", 3),
            ("w 0 0 1 1 0 0 0", 4),
            ("w 0 1 0 1 0 0 0", 4),
            ("w 0 1 1 0 0 0 0", 4),
            ("w 0 1 1 1 1 0 0", 5),
            ("w 0 2 2 2 0 0 0 2 2", 5),
            ("w 1 5 5 5 9 0 0 2 0 4 0 4 4 0 4", 5),
        ] {
            let cleaning = asked(line);
            let rows = &cleaning.rows;
            let lent = Lengths {
                scratch: scratch::Lengths {
                    next: rows.scratch.next.len(),
                    prev: rows.scratch.prev.len(),
                    mark: rows.scratch.mark.len(),
                },
                out: rows.out.len(),
            };
            assert_eq!(cleaning.reply, reply, "{line}");
            let counts = [cleaning.points, cleaning.decisions, cleaning.turns];
            assert_eq!(counts, [0; 3], "{line}");
            assert_eq!(cleaning.rows, Rows::with_canaries(lent), "{line}");
        }
    }

    #[test]
    fn a_kept_contour_leaves_the_rest_of_longer_rows() {
        let cleaning = asked("w 0 6 7 8 13 0 0 2 0 4 0 4 4 0 4");
        assert_eq!(
            (cleaning.reply, cleaning.points, cleaning.decisions),
            (0, 4, 6)
        );
        assert_eq!(cleaning.rows.scratch.next, [0, 0, 0, 0, 0, 7]);
        assert_eq!(cleaning.rows.scratch.prev, [0, 0, 0, 0, 0, 7, 7]);
        assert_eq!(cleaning.rows.scratch.mark, [0, 0, 0, 0, 0, 7, 7, 7]);
        assert_eq!(
            cleaning.rows.out,
            [0, 0, 4, 0, 4, 4, 0, 4, -7, -7, -7, -7, -7]
        );
    }

    #[test]
    fn a_collapsed_contour_leaves_the_output() {
        let cleaning = asked("w 1 3 4 3 6 0 0 1 0 2 0");
        assert_eq!(
            (cleaning.reply, cleaning.points, cleaning.decisions),
            (7, 0, 1)
        );
        assert_eq!(cleaning.rows.scratch.prev, [0, 0, 0, 7]);
        assert_eq!(cleaning.rows.out, [-7; 6]);
    }

    #[test]
    fn the_line_has_the_checksums_of_the_rows() {
        assert_eq!(asked("w 0 0 0 0 0").to_string(), "7 0 0 0 0 0 0 0 0:0");
        assert_eq!(
            asked("w 0 2 1 2 1").to_string(),
            "7 0 0 0 224 7 224 4294967289 0:0"
        );
    }
}
