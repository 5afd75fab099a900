//! One line of the list of drawings.

use crate::line::{length, repeated, write_times, Part, Row, Words, MOST_NUMBERS, NO_KIND};
use crate::sets::flat::{next_records, write_records, Record};
use requests::drawing::Drawing;
use requests::exact::Bits;
use std::fmt;
use std::str::FromStr;

/// The first byte of a line names its kind.
const IMPORT: &str = "i";
const EXPORT: &str = "e";

/// A case gives at most so many kinds and floats, and no longer rows of them are lent.
pub const MOST_KINDS: usize = 131_200;
pub const MOST_FLOATS: usize = 140_100;

/// At most so many records are lent.
pub const MOST_RECORDS: usize = 65_600;

/// How many entries two lent rows have.
pub type Lengths = [usize; 2];

/// The longest rows that can be lent: of numbers and of records, or of kinds and of floats.
pub const LONGEST_IN: Lengths = [MOST_NUMBERS, MOST_RECORDS];
pub const LONGEST_OUT: Lengths = [MOST_KINDS, MOST_FLOATS];

#[derive(Clone, Debug, PartialEq, Eq)]
pub enum Case {
    /// A drawing comes in, into rows of numbers and of records.
    Import { lent: Lengths, drawing: Drawing },
    /// A set goes out, into rows of kinds and of floats.
    Export {
        lent: Lengths,
        contours: Vec<Record>,
        points: Row,
    },
}

impl fmt::Display for Case {
    fn fmt(&self, out: &mut fmt::Formatter) -> fmt::Result {
        match self {
            Case::Import { lent, drawing } => {
                write!(out, "{IMPORT} {} {}", lent[0], lent[1])?;
                write!(out, " {}", drawing.kinds.len())?;
                write_runs(out, &drawing.kinds, |kind| kind.to_string())?;
                write_runs(out, &drawing.floats, |float| format!("{float:016x}"))
            }
            Case::Export {
                lent,
                contours,
                points,
            } => {
                write!(out, "{EXPORT} {} {}", lent[0], lent[1])?;
                write_records(out, contours)?;
                write!(out, "{points}")
            }
        }
    }
}

/// Writes each entry once, with how often it follows on itself.
fn write_runs<T: Copy + PartialEq>(
    out: &mut fmt::Formatter,
    row: &[T],
    word: fn(T) -> String,
) -> fmt::Result {
    for same in row.chunk_by(|a, b| a == b) {
        write!(out, " {}", word(same[0]))?;
        write_times(out, same.len())?;
    }
    Ok(())
}

impl FromStr for Case {
    type Err = String;

    fn from_str(line: &str) -> Result<Case, String> {
        let words: &mut Words = &mut line.split(' ');
        match words.next() {
            Some(IMPORT) => Ok(Case::Import {
                lent: read_lengths(words, LONGEST_IN)?,
                drawing: Drawing {
                    kinds: read_kinds(words)?,
                    floats: read_floats(words)?,
                },
            }),
            Some(EXPORT) => Ok(Case::Export {
                lent: read_lengths(words, LONGEST_OUT)?,
                contours: next_records(words)?,
                points: Row::read(words)?,
            }),
            _ => Err(NO_KIND.into()),
        }
    }
}

fn read_lengths(words: &mut Words, [first, second]: Lengths) -> Result<Lengths, String> {
    Ok([length(words, first)?, length(words, second)?])
}

/// Reads how many kinds there are, and the kinds.
fn read_kinds(words: &mut Words) -> Result<Vec<u8>, String> {
    let count = length(words, MOST_KINDS)?;
    let mut kinds = vec![];
    while kinds.len() < count {
        let word = words.next().ok_or("the line is too short")?;
        let (kind, times) = repeated(word)?;
        if times > count - kinds.len() {
            return Err("there are more kinds than said".into());
        }
        let kind = length(&mut kind.split(' '), 255)?;
        kinds.extend([kind as u8].repeat(times));
    }
    Ok(kinds)
}

/// Reads floats up to the line's end.
fn read_floats(words: &mut Words) -> Result<Vec<Bits>, String> {
    let mut floats = vec![];
    for word in words {
        let (digits, times) = repeated(word)?;
        if times > MOST_FLOATS - floats.len() {
            return Err("there are too many floats".into());
        }
        let digit = |byte| matches!(byte, b'0'..=b'9' | b'a'..=b'f');
        if digits.len() != 16 || !digits.bytes().all(digit) {
            return Err(format!("{digits:?} is no float"));
        }
        let float = Bits::from_str_radix(digits, 16).expect("sixteen digits");
        floats.extend([float].repeat(times));
    }
    Ok(floats)
}

#[cfg(test)]
mod tests {
    use super::Case;
    use crate::line::tests::{refused, written_as_read};

    #[test]
    fn a_line_is_read_as_it_was_written() {
        written_as_read::<Case>(&[
            "i 0 0 0",
            "i 2 1 1 0 3ff0000000000000 c000000000000000",
            "i 131074 65600 3 0 7 255 7ff8000000000001*2",
            "i 5 1 70001 0*70000 3 0000000000000000*140000",
            "i 5 1 0 0000000000000000*140100",
            "e 0 0 0",
            "e 131200 140100 2 0 1 1 1 5 -6",
            "e 9 8 1 0 65536 7 8 *65536",
        ]);
    }

    #[test]
    fn a_damaged_line_is_refused() {
        refused::<Case>(&["", "c", "i", "i 0", "i 0 0", "i 0 0 1", "i 0 0 0 "]);
        refused::<Case>(&["i 131075 0 0", "i 0 65601 0", "i 0 0 131201 0*131201"]);
        refused::<Case>(&["i 0 0 1 256", "i 0 0 1 -1", "i 0 0 1 0*2", "i 0 0 1 0*0"]);
        refused::<Case>(&[
            "i 0 0 0 0",
            "i 0 0 0 000000000000000g",
            "i 0 0 0 00000000000000000",
        ]);
        refused::<Case>(&[
            "i 0 0 0 3FF0000000000000",
            "i 0 0 0 0000000000000000*140101",
        ]);
        refused::<Case>(&["e", "e 0 0", "e 131201 0 0", "e 0 140101 0", "e 0 0 65"]);
        refused::<Case>(&["e 0 0 1 0", "e 0 0 0 1 *0"]);
    }
}
