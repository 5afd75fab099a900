//! What two sets are to each other, contour by contour.

use crate::flat::buffer::FlatContoursBuffer;
use crate::library;
use crate::refused::Refused;
use crate::LIMIT;
use std::error::Error;
use std::fmt;

/// What two sets have under one contour number. Points are counted from 0.
#[derive(Debug, Clone, Copy, PartialEq, Eq)]
#[non_exhaustive]
pub enum Line {
    /// 0: the same contour, point by point; or both are empty.
    Same,
    /// 1: the same once the second starts at this point, the smallest such start.
    Elsewhere {
        /// The start, from 1 on.
        start: usize,
    },
    /// 2: different, first at this point; the shorter count, if one is the beginning of the other.
    Different {
        /// The point.
        point: usize,
    },
    /// 3: only the first set has so many contours.
    OnlyFirst,
    /// 4: only the second.
    OnlySecond,
    /// A kind that a later library has, and that this crate has no name for.
    Unknown {
        /// The library's number for it.
        kind: usize,
        /// What goes with that kind.
        place: usize,
    },
}

/// Why two sets were not compared: a set that is refused, 1 the first or 2 the second, and why.
#[derive(Clone, Copy, PartialEq, Eq)]
pub struct RefusedSet {
    /// 1 for the first, 2 for the second, 0 for neither.
    pub set: u32,
    /// Why.
    pub refused: Refused,
}

impl FlatContoursBuffer {
    /// What this set and another one are to each other, a line for each contour number of the larger one.
    pub fn compare(&self, other: &FlatContoursBuffer) -> Result<Vec<Line>, RefusedSet> {
        let count = self.ranges.len().max(other.ranges.len());
        let mut listing = vec![[0, 0]; count];
        library::compare_sets(
            &self.points,
            &self.ranges,
            &other.points,
            &other.ranges,
            &mut listing,
        )
        .read(&listing)
        .map_err(|RefusedSet { set, refused }| {
            let of = if set == 2 { other } else { self };
            let refused = refused.at(&of.points, &of.ranges, LIMIT);
            RefusedSet { set, refused }
        })
    }
}

impl Line {
    /// Reads a line of the library's listing.
    pub(crate) fn read(&[kind, place]: &[usize; 2]) -> Self {
        match kind {
            0 => Line::Same,
            1 => Line::Elsewhere { start: place },
            2 => Line::Different { point: place },
            3 => Line::OnlyFirst,
            4 => Line::OnlySecond,
            kind => Line::Unknown { kind, place },
        }
    }
}

impl fmt::Display for RefusedSet {
    fn fmt(&self, f: &mut fmt::Formatter<'_>) -> fmt::Result {
        match self.set {
            1 => write!(f, "of the first set: {}", self.refused),
            2 => write!(f, "of the second set: {}", self.refused),
            _ => write!(f, "{}", self.refused),
        }
    }
}

/// The same words as `{}`, as those of [`Refused`].
impl fmt::Debug for RefusedSet {
    fn fmt(&self, f: &mut fmt::Formatter<'_>) -> fmt::Result {
        fmt::Display::fmt(self, f)
    }
}

impl Error for RefusedSet {}
