//! One line of the list of files.

use super::mend::Lent;
use super::text::{read_file, read_records, write_file, write_records};
use crate::line::{length, Part, Row, Words, NO_KIND};
use crate::sets::flat::Set;
use crate::sets::rows::Lengths;
use requests::edition::Edition;
use std::fmt;
use std::str::FromStr;

/// The first byte of a line names its kind.
const READING: &str = "r";
const WRITING: [&str; 2] = ["f", "F"];
const MENDING: &str = "m";

/// A case gives at most so many bytes of a file, and so many records of each kind.
pub const MOST_FILE: usize = 65_600;
pub const MOST_RECORDS: usize = 32_800;

/// The longest rows that can be lent to a reading.
pub const LONGEST: Lengths = Lengths {
    out: 131_200,
    records: 4100,
    groups: 4100,
};

/// The longest rows that can be lent to a mending.
pub const LONGEST_MENDED: Lent = Lent {
    out: MOST_FILE,
    list: LONGEST.records,
};

#[derive(Clone, Debug, PartialEq, Eq)]
pub enum Case {
    /// A file is read into rows of these lengths.
    Reading { lent: Lengths, file: Vec<u8> },
    /// A set is written as a file of the edition into a row of so many bytes.
    Writing {
        edition: Edition,
        room: usize,
        set: Set,
    },
    /// What is sound of a file is written into rows of these lengths.
    Mending { lent: Lent, file: Vec<u8> },
}

impl Case {
    /// The file that is read or mended.
    pub fn file(&self) -> Option<Vec<u8>> {
        match self {
            Case::Reading { file, .. } | Case::Mending { file, .. } => Some(file.clone()),
            Case::Writing { .. } => None,
        }
    }
}

impl fmt::Display for Case {
    fn fmt(&self, out: &mut fmt::Formatter) -> fmt::Result {
        match self {
            Case::Reading { lent, file } => {
                write!(out, "{READING} {lent}")?;
                write_file(out, file)
            }
            Case::Writing { edition, room, set } => {
                write!(out, "{} {room}", WRITING[*edition as usize - 1])?;
                write_records(out, &set.contours)?;
                write_records(out, &set.shapes)?;
                write!(out, "{}", set.points)
            }
            Case::Mending { lent, file } => {
                write!(out, "{MENDING} {lent}")?;
                write_file(out, file)
            }
        }
    }
}

impl FromStr for Case {
    type Err = String;

    fn from_str(line: &str) -> Result<Case, String> {
        let words: &mut Words = &mut line.split(' ');
        let kind = words.next().ok_or(NO_KIND)?;
        match kind {
            READING => Ok(Case::Reading {
                lent: Lengths::read(words, LONGEST)?,
                file: read_file(words, MOST_FILE)?,
            }),
            MENDING => Ok(Case::Mending {
                lent: Lent::read(words, LONGEST_MENDED)?,
                file: read_file(words, MOST_FILE)?,
            }),
            _ => read_writing(kind, words),
        }
    }
}

fn read_writing(kind: &str, words: &mut Words) -> Result<Case, String> {
    let place = WRITING.iter().position(|&letter| letter == kind);
    Ok(Case::Writing {
        edition: Edition::BOTH[place.ok_or(NO_KIND)?],
        room: length(words, MOST_FILE)?,
        set: Set {
            contours: read_records(words, MOST_RECORDS)?,
            shapes: read_records(words, MOST_RECORDS)?,
            points: Row::read(words)?,
        },
    })
}

#[cfg(test)]
mod tests {
    use super::Case;
    use crate::line::tests::{refused, written_as_read};

    #[test]
    fn a_line_is_read_as_it_was_written() {
        written_as_read::<Case>(&[
            "r 0 0 0",
            "r 131200 4100 4100 1000",
            "r 2 1 1 10018001 00*100",
            "r 2 1 1 1fff 8000*4094 80",
            "f 0 0 0",
            "f 65600 1 0 1 1 0 1 5 -6",
            "f 9 32800 0 0*32799 1 0 1 0 2147483647 7 8 *8191",
            "F 0 0 0",
            "F 65600 1 0 1 1 0 1 5 -6",
            "m 0 0",
            "m 65600 4100 1fff 8000*4094 80",
        ]);
    }

    #[test]
    fn a_damaged_line_is_refused() {
        refused::<Case>(&["", "c", "r", "r 0 0", "r 0 0 0 ", "r 0 0 0 1", "r 0 0 0 1G"]);
        refused::<Case>(&["r 131201 0 0", "r 0 4101 0", "r 0 0 4101", "r 0 0 0 00*0"]);
        refused::<Case>(&["r 0 0 0 00*65601", "r 0 0 0 00*65600 00"]);
        refused::<Case>(&["f", "f 0 0", "f 65601 0 0", "f 0 32801 0 0*32801 0"]);
        refused::<Case>(&["f 0 1 0 0*2 0", "f 0 1 0 0*0 0"]);
        refused::<Case>(&["f 0 2 0 0 0", "f 0 1 -1 0 0"]);
        refused::<Case>(&["F", "F 0 0", "F 65601 0 0", "F 0 1 0 0*0 0", "R 0 0 0"]);
        refused::<Case>(&[
            "m",
            "m 0",
            "m 65601 0",
            "m 0 4101",
            "m 0 0 1",
            "m 0 0 00*65601",
        ]);
    }
}
