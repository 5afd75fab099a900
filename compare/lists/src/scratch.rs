//! The scratch that is lent to a cleaning.

use crate::checksum::checksum;
use crate::line::{length, Words};
use requests::reply::{refused_if, Reply, SCRATCH};
use std::fmt;

/// How many entries its rows have.
#[derive(Clone, Copy, Debug, PartialEq, Eq)]
pub struct Lengths {
    pub next: usize,
    pub prev: usize,
    pub mark: usize,
}

impl Lengths {
    /// Three rows of one length.
    pub fn all(length: usize) -> Lengths {
        Lengths {
            next: length,
            prev: length,
            mark: length,
        }
    }

    /// Rows longer or shorter by the offsets, if none would be shorter than nothing.
    pub fn beside(self, [next, prev, mark]: [isize; 3]) -> Option<Lengths> {
        Some(Lengths {
            next: self.next.checked_add_signed(next)?,
            prev: self.prev.checked_add_signed(prev)?,
            mark: self.mark.checked_add_signed(mark)?,
        })
    }

    /// Reads three lengths, each at most so long.
    pub fn read(words: &mut Words, most: usize) -> Result<Lengths, String> {
        Ok(Lengths {
            next: length(words, most)?,
            prev: length(words, most)?,
            mark: length(words, most)?,
        })
    }

    /// Refuses rows of which one has fewer entries than there are points.
    pub fn enough_for(self, points: usize) -> Reply<()> {
        let rows = [self.next, self.prev, self.mark];
        refused_if(rows.iter().any(|&length| length < points), SCRATCH)
    }
}

impl fmt::Display for Lengths {
    fn fmt(&self, out: &mut fmt::Formatter) -> fmt::Result {
        write!(out, "{} {} {}", self.next, self.prev, self.mark)
    }
}

#[derive(Debug, PartialEq, Eq)]
pub struct Scratch {
    pub next: Vec<u32>,
    pub prev: Vec<u32>,
    pub mark: Vec<u8>,
}

impl Scratch {
    pub fn with_canaries(lent: Lengths) -> Scratch {
        Scratch {
            next: vec![7; lent.next],
            prev: vec![7; lent.prev],
            mark: vec![7; lent.mark],
        }
    }

    /// The rows after a cleaning of so many points.
    pub fn zeroed(mut self, points: usize) -> Scratch {
        self.next[..points].fill(0);
        self.prev[..points].fill(0);
        self.mark[..points].fill(0);
        self
    }
}

/// The checksums of the rows.
impl fmt::Display for Scratch {
    fn fmt(&self, out: &mut fmt::Formatter) -> fmt::Result {
        let [next, prev] = [&self.next, &self.prev].map(|row| checksum(row));
        write!(out, "{next} {prev} {}", checksum(&self.mark))
    }
}
