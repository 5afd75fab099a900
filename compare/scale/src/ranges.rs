//! Rows of ranges and a count: the check that takes records as structs of a start and an end, of any numbers.

use crate::input::{Found, Input};
use crate::library::ranges_sound;
use lists::sets::flat::{sound, write_records, Record};
use std::fmt;

pub struct Ranges {
    pub records: Vec<Record>,
    pub count: usize,
}

/// No list has this kind, whose numbers would be too large for one.
impl fmt::Display for Ranges {
    fn fmt(&self, out: &mut fmt::Formatter) -> fmt::Result {
        write!(out, "ranges {}", self.count)?;
        write_records(out, &self.records)
    }
}

impl Input for Ranges {
    fn compare(&self) -> Found {
        let mut found = Found::default();
        hold(&mut found, &self.records, self.count);
        found
    }

    fn size(&self) -> usize {
        2 * self.records.len()
    }
}

/// Whether the records are sound over the count.
pub fn hold(found: &mut Found, records: &[Record], count: usize) {
    let before = records.to_vec();
    let answer = ranges_sound(records, count);
    found.hold("ranges_sound", sound(&before, count), answer);
    found.hold_unchanged(&before[..], records);
}
