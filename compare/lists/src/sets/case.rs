//! One line of the list of sets.

use super::flat::Set;
use super::packing::Call;
use crate::line::{self, Part, Words, NO_KIND};
use std::fmt;

/// The first byte of a line names its kind.
const ASKED: &str = "s";
const PACKING: &str = "p";

/// What is asked of a set.
pub type Case = line::Case<Kind, Set>;

#[derive(Clone, Debug, PartialEq, Eq)]
pub enum Kind {
    /// Every question about the set.
    Asked,
    /// One packing or addition.
    Packing(Call),
}

impl fmt::Display for Kind {
    fn fmt(&self, out: &mut fmt::Formatter) -> fmt::Result {
        match self {
            Kind::Asked => write!(out, "{ASKED}"),
            Kind::Packing(call) => write!(out, "{PACKING} {call}"),
        }
    }
}

/// The kind, and what stands before the set.
impl Part for Kind {
    fn read(words: &mut Words) -> Result<Kind, String> {
        match words.next() {
            Some(ASKED) => Ok(Kind::Asked),
            Some(PACKING) => Ok(Kind::Packing(Call::read(words)?)),
            _ => Err(NO_KIND.into()),
        }
    }
}

#[cfg(test)]
mod tests {
    use super::Case;
    use crate::line::tests::{refused, written_as_read};

    #[test]
    fn a_line_is_read_as_it_was_written() {
        written_as_read::<Case>(&[
            "s 0 0",
            "s 1 0 3 1 0 1 0 0 4 0 0 4",
            "s 2 5 1 0 0 0 -7 *3",
            "p 0 6 1 1 0 0 1 0 3 1 0 1 0 0 4 0 0 4",
            "p 7 1100 80 80 2 1 0 1 1 0 3 1 0 1 0 0 4 0 0 4 9 9",
        ]);
    }

    #[test]
    fn a_damaged_line_is_refused() {
        refused::<Case>(&["", "s", "s 0", "s 1 0 0", "s 0 1 0", "s 65", "c 0 0"]);
        refused::<Case>(&["s 1 -1 0 0", "s 1 0 2147483648 0", "s 0 0 *0"]);
        refused::<Case>(&["p 8 0 0 0 0 0 0 0", "p 0 1101 0 0 0 0 0 0"]);
        refused::<Case>(&["p 0 0 81 0 0 0 0 0", "p 0 0 0 81 0 0 0 0"]);
        refused::<Case>(&["p 0 0 0 0 0 0 0"]);
    }
}
