//! One line of the list of questions about sets and of cleanings.

use crate::cleaner::Cleaner;
use crate::line::{self, length, next_number, Part, Words, NO_KIND};
use crate::point::Point;
use crate::scratch;
use crate::sets::flat::Set;
use crate::sets::rows;
use std::fmt;

/// The first byte of a line names its kind.
const ASKED: &str = "q";
const CLEANING: &str = "W";

/// The longest row of scratch that can be lent.
pub const MOST_SCRATCH: usize = 550;

/// What is asked of a set.
pub type Case = line::Case<Kind, Set>;

#[derive(Clone, Copy, Debug, PartialEq, Eq)]
pub enum Kind {
    /// Every question about the set; one is about a point.
    Asked { asked: Point },
    /// One cleaning, with rows of these lengths.
    Cleaning { form: Form, lent: Lengths },
}

/// Which cleaner is asked, and what it cleans.
#[derive(Clone, Copy, Debug, PartialEq, Eq)]
pub struct Form {
    pub cleaner: Cleaner,
    /// Whether the set's shapes; if not, its contours are one shape.
    pub shapes: bool,
}

impl Form {
    pub const ALL: [Form; 4] = [
        Form::new(Cleaner::Simplified, false),
        Form::new(Cleaner::Despiked, false),
        Form::new(Cleaner::Simplified, true),
        Form::new(Cleaner::Despiked, true),
    ];

    const fn new(cleaner: Cleaner, shapes: bool) -> Form {
        Form { cleaner, shapes }
    }

    /// The number that the list has for the form.
    pub fn number(self) -> usize {
        self.cleaner.number() + if self.shapes { 2 } else { 0 }
    }
}

/// How many entries the rows have.
#[derive(Clone, Copy, Debug, PartialEq, Eq)]
pub struct Lengths {
    pub scratch: scratch::Lengths,
    pub rows: rows::Lengths,
}

impl fmt::Display for Kind {
    fn fmt(&self, out: &mut fmt::Formatter) -> fmt::Result {
        match *self {
            Kind::Asked { asked: [x, y] } => write!(out, "{ASKED} {x} {y}"),
            Kind::Cleaning { form, lent } => {
                let number = form.number();
                write!(out, "{CLEANING} {number} {} {}", lent.scratch, lent.rows)
            }
        }
    }
}

/// The kind, and what stands before the set.
impl Part for Kind {
    fn read(words: &mut Words) -> Result<Kind, String> {
        match words.next() {
            Some(ASKED) => Ok(Kind::Asked {
                asked: [next_number(words)?, next_number(words)?],
            }),
            Some(CLEANING) => Ok(Kind::Cleaning {
                form: Form::ALL[length(words, Form::ALL.len() - 1)?],
                lent: Lengths {
                    scratch: scratch::Lengths::read(words, MOST_SCRATCH)?,
                    rows: rows::Lengths::read(words, rows::Lengths::LONGEST)?,
                },
            }),
            _ => Err(NO_KIND.into()),
        }
    }
}

#[cfg(test)]
mod tests {
    use super::Case;
    use crate::line::tests::{refused, written_as_read};

    #[test]
    fn a_line_is_read_as_it_was_written() {
        written_as_read::<Case>(&[
            "q 1 1 0 0",
            "q -1 1073741824 1 0 3 1 0 1 0 0 4 0 0 4",
            "W 0 3 3 3 6 1 0 1 0 3 0 0 0 4 0 0 4",
            "W 3 550 550 550 1100 80 80 1 0 16 1 0 1 -5 7 *16",
        ]);
    }

    #[test]
    fn a_damaged_line_is_refused() {
        refused::<Case>(&["", "q 1 0 0", "s 0 0", "W 4 0 0 0 0 0 0 0 0"]);
        refused::<Case>(&["W 0 551 0 0 0 0 0 0 0", "W 0 0 0 551 0 0 0 0 0"]);
        refused::<Case>(&["W 0 0 0 0 1101 0 0 0 0", "W 0 0 0 0 0 81 0 0 0"]);
        refused::<Case>(&["W 0 0 0 0 0 0 81 0 0", "W 0 0 0 0 0 0 0"]);
    }
}
