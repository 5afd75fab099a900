//! What both sides answer, and what is held against what.

use crate::library::Lent;
use std::fmt::{Debug, Display};

/// An input, written as a line of the lists in crates/.
pub trait Input: Display {
    /// Asks both sides.
    fn compare(&self) -> Found;

    /// How many numbers or bytes it has.
    fn size(&self) -> usize;
}

/// The differences found on one input, each in words.
#[derive(Debug, Default)]
pub struct Found(pub Vec<String>);

impl Found {
    pub fn hold<T: Debug + PartialEq>(&mut self, what: &str, original: T, library: T) {
        if original != library {
            self.differ(what, original, library);
        }
    }

    /// The whole row after the call, and what stands on either side of it.
    pub fn hold_row<T>(&mut self, row: &str, original: &[T], library: &Lent<T>)
    where
        T: Copy + Debug + PartialEq,
    {
        if library.holds(original) {
            return;
        }
        if let Some((place, belongs, stands)) = library.first_other(original) {
            self.differ(&format!("{row} at {place}"), belongs, stands);
        }
    }

    /// What is only read.
    pub fn hold_unchanged<T: Debug + PartialEq + ?Sized>(&mut self, before: &T, after: &T) {
        self.hold("what is only read", before, after);
    }

    fn differ<T: Debug>(&mut self, what: &str, original: T, library: T) {
        let difference = format!("{what}: the original {original:?}, the library {library:?}");
        self.0.push(difference);
    }
}
