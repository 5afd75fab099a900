//! One line of the list of histories.

use crate::line::{length, repeated, write_times, Part, Row, Words, NO_KIND};
use requests::pool::{Record, Rows};
use std::fmt;
use std::str::FromStr;

/// The first byte of a line names its kind.
const HISTORY: &str = "h";

/// The longest rows that can be lent, of numbers and of records.
pub const LONGEST: [usize; 2] = [131_200, 65_600];

/// The pairs that a line gives, of records and of calls together.
const MOST_PAIRS: usize = 65_600;

/// What a press calls for: a contour is added, those numbers of the row from a start to an end, or its newest removed.
#[derive(Clone, Copy, Debug, PartialEq, Eq)]
pub enum Call {
    Add {
        press: usize,
        start: usize,
        end: usize,
    },
    Remove {
        press: usize,
    },
}

impl Call {
    /// The press that calls, and the contour of these numbers that it adds, or none where it removes one.
    pub fn of<'a>(&self, numbers: &'a [i32]) -> (usize, Option<&'a [i32]>) {
        match *self {
            Call::Add { press, start, end } => {
                let end = end.min(numbers.len());
                (press, Some(&numbers[start.min(end)..end]))
            }
            Call::Remove { press } => (press, None),
        }
    }
}

/// A history: the lengths of the lent rows, how many records are in use, those that stand in front of their row, the
/// calls, and the numbers that the added contours are of.
#[derive(Clone, Debug, PartialEq, Eq)]
pub struct Case {
    pub lent: [usize; 2],
    pub contours: usize,
    pub records: Vec<Record>,
    pub calls: Vec<Call>,
    pub numbers: Row,
}

impl Case {
    /// The rows before the calls, full of canaries behind the given records.
    pub fn rows(&self) -> Rows {
        let [points, records] = self.lent;
        let mut rows = Rows {
            points: vec![-7; points],
            records: vec![[7; 4]; records],
            contours: self.contours,
        };
        for (record, &given) in rows.records.iter_mut().zip(&self.records) {
            *record = given;
        }
        rows
    }
}

type Pair = [usize; 2];

impl fmt::Display for Case {
    fn fmt(&self, out: &mut fmt::Formatter) -> fmt::Result {
        let [points, records] = self.lent;
        write!(out, "{HISTORY} {points} {records} {}", self.contours)?;
        let halves = |&[start, end, tool, press]: &Record| [[start, end], [tool, press]];
        write_pairs(out, self.records.iter().flat_map(halves).collect())?;
        let halves = |&call: &Call| match call {
            Call::Add { press, start, end } => [[0, press], [start, end]],
            Call::Remove { press } => [[1, press], [0, 0]],
        };
        write_pairs(out, self.calls.iter().flat_map(halves).collect())?;
        write!(out, "{}", self.numbers)
    }
}

/// Writes how many pairs there are, and each once, with how often it follows on itself.
fn write_pairs(out: &mut fmt::Formatter, pairs: Vec<Pair>) -> fmt::Result {
    write!(out, " {}", pairs.len())?;
    for same in pairs.chunk_by(|a, b| a == b) {
        let [first, second] = same[0];
        write!(out, " {first} {second}")?;
        write_times(out, same.len())?;
    }
    Ok(())
}

impl FromStr for Case {
    type Err = String;

    fn from_str(line: &str) -> Result<Case, String> {
        let words: &mut Words = &mut line.split(' ');
        if words.next() != Some(HISTORY) {
            return Err(NO_KIND.into());
        }
        let lent = [length(words, LONGEST[0])?, length(words, LONGEST[1])?];
        let contours = length(words, i32::MAX as usize)?;
        let records = next_pairs(words, MOST_PAIRS)?;
        let calls = next_pairs(words, MOST_PAIRS - records.len())?;
        let record = |pair: &[Pair]| [pair[0][0], pair[0][1], pair[1][0], pair[1][1]];
        Ok(Case {
            lent,
            contours,
            records: records.chunks_exact(2).map(record).collect(),
            calls: calls.chunks_exact(2).map(call).collect(),
            numbers: Row::read(words)?,
        })
    }
}

fn call(pairs: &[Pair]) -> Call {
    let press = usize::from(pairs[0][1] != 0);
    match pairs[0][0] {
        0 => Call::Add {
            press,
            start: pairs[1][0],
            end: pairs[1][1],
        },
        _ => Call::Remove { press },
    }
}

fn next_pairs(words: &mut Words, most: usize) -> Result<Vec<Pair>, String> {
    let count = length(words, most)?;
    let mut pairs = vec![];
    while pairs.len() < count {
        let first = length(words, i32::MAX as usize)?;
        let (second, times) = repeated(words.next().ok_or("the line is too short")?)?;
        let second = length(&mut second.split(' '), i32::MAX as usize)?;
        if times > count - pairs.len() {
            return Err("there are more pairs than the line says".into());
        }
        pairs.extend([[first, second]].repeat(times));
    }
    Ok(pairs)
}

#[cfg(test)]
mod tests {
    use super::Case;
    use crate::line::tests::{refused, written_as_read};

    #[test]
    fn a_line_is_read_as_it_was_written() {
        written_as_read::<Case>(&[
            "h 0 0 0 0 0",
            "h 131072 65536 0 0 2 0 1 0 2 7 8",
            "h 9 8 7 4 0 3 255 1 3 3 0 0 2 1 0 0 0 1 2 *3",
            "h 131200 65600 32000 64000 0 0*64000 4 0 0*3 1 1",
        ]);
    }

    #[test]
    fn a_damaged_line_is_refused() {
        refused::<Case>(&["", "h", "h 0 0 0 0", "h 131201 0 0 0 0", "h 0 65601 0 0 0"]);
        refused::<Case>(&["h 0 0 0 2 0 0 0", "h 0 0 0 2 0 0*3 0", "s 0 0"]);
    }
}
