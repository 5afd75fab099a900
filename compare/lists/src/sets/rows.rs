//! The rows that are lent for a set: of numbers, of contour records and of shape records.

use super::flat::Record;
use crate::checksum::checksum;
use crate::line::{length, Words};
use requests::reply::{refused_if, Reply, ROOM};
use std::fmt;

/// How many entries they have.
#[derive(Clone, Copy, Debug, PartialEq, Eq)]
pub struct Lengths {
    pub out: usize,
    pub records: usize,
    pub groups: usize,
}

/// By how much they differ from the need.
pub type Offsets = [isize; 3];

/// As long as needed, longer and shorter.
pub const OFFSETS: [Offsets; 11] = [
    [0, 0, 0],
    [-1, 0, 0],
    [0, -1, 0],
    [0, 0, -1],
    [1, 2, 3],
    [-2, 0, 0],
    [5, -1, 0],
    [5, 3, -1],
    [-1, -1, -1],
    [0, 1, 0],
    [1, 0, 1],
];

impl Lengths {
    /// The longest rows that can be lent for a set.
    pub const LONGEST: Lengths = Lengths {
        out: 1100,
        records: 80,
        groups: 80,
    };

    /// Rows longer or shorter by the offsets, but none beyond the longest.
    pub fn beside(self, [out, records, groups]: Offsets, longest: Lengths) -> Lengths {
        let beside = |need: usize, offset, most| need.saturating_add_signed(offset).min(most);
        Lengths {
            out: beside(self.out, out, longest.out),
            records: beside(self.records, records, longest.records),
            groups: beside(self.groups, groups, longest.groups),
        }
    }

    /// Reads three lengths, none beyond the longest.
    pub fn read(words: &mut Words, longest: Lengths) -> Result<Lengths, String> {
        Ok(Lengths {
            out: length(words, longest.out)?,
            records: length(words, longest.records)?,
            groups: length(words, longest.groups)?,
        })
    }
}

impl fmt::Display for Lengths {
    fn fmt(&self, out: &mut fmt::Formatter) -> fmt::Result {
        write!(out, "{} {} {}", self.out, self.records, self.groups)
    }
}

#[derive(Debug, PartialEq, Eq)]
pub struct Rows {
    pub out: Vec<i32>,
    pub records: Vec<Record>,
    pub groups: Vec<Record>,
}

impl Rows {
    pub fn with_canaries(lent: Lengths) -> Rows {
        Rows {
            out: vec![-7; lent.out],
            records: vec![[7, 7]; lent.records],
            groups: vec![[7, 7]; lent.groups],
        }
    }

    /// The rows with the set in front, if there is room for all of it.
    pub fn holding(&self, points: &[i32], contours: &[Record], shapes: &[Record]) -> Reply<Rows> {
        Ok(Rows {
            out: front(points, &self.out)?,
            records: front(contours, &self.records)?,
            groups: front(shapes, &self.groups)?,
        })
    }
}

/// The row with these entries in front.
fn front<T: Clone>(entries: &[T], row: &[T]) -> Reply<Vec<T>> {
    refused_if(row.len() < entries.len(), ROOM)?;
    Ok([entries, &row[entries.len()..]].concat())
}

/// The checksums of the rows.
impl fmt::Display for Rows {
    fn fmt(&self, out: &mut fmt::Formatter) -> fmt::Result {
        let numbers = |records: &[Record]| -> Vec<i64> {
            records.concat().iter().map(|&place| place as i64).collect()
        };
        let [records, groups] = [&self.records, &self.groups].map(|row| checksum(&numbers(row)));
        write!(out, "{} {records} {groups}", checksum(&self.out))
    }
}
