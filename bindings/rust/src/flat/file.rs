//! Set files of both editions, and what is sound of a damaged one.

use crate::flat::buffer::FlatShapesBuffer;
use crate::library;
use crate::refused::{At, Refused};
use crate::{LIMIT, NARROW_LIMIT};
use std::fmt;

/// The most contours of a file: its count has twelve bits.
const MOST_CONTOURS: usize = 4095;

/// How a set file carries its points.
#[derive(Debug, Clone, Copy, PartialEq, Eq)]
#[non_exhaustive]
pub enum Edition {
    /// Each in 64 bits, on the narrow grid.
    One,
    /// Each but a contour's first as its differences from the one before, in as few bits as carry all of the contour's.
    Two,
    /// An edition that a later library has, and that this crate has no name for.
    Unknown {
        /// Its number.
        number: u32,
    },
}

impl Edition {
    /// Reads an edition of the library.
    pub(crate) fn read(number: u32) -> Self {
        match number {
            1 => Edition::One,
            2 => Edition::Two,
            number => Edition::Unknown { number },
        }
    }

    /// 1 or 2.
    pub fn number(self) -> u32 {
        match self {
            Edition::One => 1,
            Edition::Two => 2,
            Edition::Unknown { number } => number,
        }
    }
}

/// What a file carries.
#[derive(Debug, Clone, PartialEq, Eq)]
pub struct Read {
    /// Which edition the file is.
    pub edition: Edition,
    /// Its shapes.
    pub set: FlatShapesBuffer,
}

/// The set file, of both editions.
impl FlatShapesBuffer {
    /// The set of a file, and which edition that is. Refused as `OffGrid` where a coordinate of edition 1 is beyond
    /// [`NARROW_LIMIT`], or one of edition 2 beyond [`LIMIT`].
    pub fn read_set(bytes: &[u8]) -> Result<Read, Refused> {
        library::at_most(bytes.len())?;
        // A contour takes two bytes or more. A point takes eight bytes in edition 1, and two bits or more in edition 2:
        // no file of this length holds more.
        let contours = (bytes.len() / 2).min(MOST_CONTOURS);
        let points = match bytes.first() {
            Some(0x20..=0x2f) => (4 * bytes.len()).min(library::MOST),
            _ => bytes.len() / 8,
        };
        let mut set = FlatShapesBuffer::rows(points, contours, contours)?;
        let read = library::read_set(
            bytes,
            &mut set.points,
            &mut set.contour_ranges,
            &mut set.shape_ranges,
        );
        read.read(set)
    }

    /// The file of the set, of edition 1. Refused as `OffGridAt` where a coordinate is beyond
    /// [`NARROW_LIMIT`].
    pub fn write_set(&self) -> Result<Vec<u8>, Refused> {
        let length = 2 + 2 * self.contour_ranges.len() + 8 * self.points.len();
        library::at_most(length)?;
        let mut bytes = vec![0; length];
        library::write_set(
            &self.points,
            &self.contour_ranges,
            &self.shape_ranges,
            &mut bytes,
        )
        .read(bytes)
        .at(&self.points, &self.contour_ranges, NARROW_LIMIT)
    }

    /// The file of the set, of edition 2. It carries coordinates up to [`LIMIT`], and the smaller the
    /// steps from point to point, the shorter it is. Refused as `TooMany` where it would be over 65,536 bytes long.
    pub fn write_set_2(&self) -> Result<Vec<u8>, Refused> {
        library::at_most(self.points.len())?;
        // A contour takes 22 bits and a point at most 64.
        let contours = self.contour_ranges.len().min(MOST_CONTOURS);
        let longest = 2 + (22 * contours + 64 * self.points.len()).div_ceil(8);
        let mut bytes = vec![0; longest.min(library::MOST)];
        library::write_set_2(
            &self.points,
            &self.contour_ranges,
            &self.shape_ranges,
            &mut bytes,
        )
        .read(bytes)
        .at(&self.points, &self.contour_ranges, LIMIT)
    }
}

/// What is sound of a damaged file, and what became of the rest.
#[derive(Debug, Clone, PartialEq, Eq)]
pub struct Salvaged {
    /// A file that [`FlatShapesBuffer::read_set`] takes.
    pub file: Vec<u8>,
    /// The contours that are there in full and are left out, in the order of the file.
    pub dropped: Vec<Dropped>,
    /// How many promised contours are not there, or not in full.
    pub missing: usize,
    /// How many bytes stand past the promised count of contours.
    pub past: usize,
}

/// A contour that is left out: its number in the file, from 0, and why.
#[derive(Debug, Clone, Copy, PartialEq, Eq)]
pub struct Dropped {
    /// Its number.
    pub contour: usize,
    /// Why.
    pub reason: Reason,
}

/// Why a contour is left out.
#[derive(Debug, Clone, Copy, PartialEq, Eq)]
#[non_exhaustive]
pub enum Reason {
    /// 3: a coordinate is beyond [`NARROW_LIMIT`].
    OffGrid,
    /// 11: it belongs to no shape that is kept.
    NoShape,
    /// A number that a later library has, and that this crate has no name for.
    Unknown {
        /// The number.
        number: usize,
    },
}

/// What is sound of an edition 1 file whose end is gone, or that has coordinates off the narrow grid, as a file of its
/// own: the contours that are there in full, without those off that grid, those of a shape whose first contour is off
/// it, and those in front of the first that begins a shape. A sound file comes back as it was.
pub fn salvage(bytes: &[u8]) -> Result<Salvaged, Refused> {
    library::at_most(bytes.len())?;
    let mut out = vec![0; bytes.len()];
    let mut dropped = vec![[0, 0]; MOST_CONTOURS];
    library::salvage(bytes, &mut out, &mut dropped).read(out, &dropped)
}

impl Dropped {
    /// Reads a line of the library's list.
    pub(crate) fn read(&[contour, number]: &[usize; 2]) -> Self {
        let reason = match number {
            3 => Reason::OffGrid,
            11 => Reason::NoShape,
            number => Reason::Unknown { number },
        };
        Dropped { contour, reason }
    }
}

impl fmt::Display for Reason {
    fn fmt(&self, f: &mut fmt::Formatter<'_>) -> fmt::Result {
        match self {
            Reason::OffGrid => f.write_str("a coordinate beyond 536,870,912 either side of 0"),
            Reason::NoShape => f.write_str("it belongs to no shape that is kept"),
            Reason::Unknown { number } => {
                write!(f, "the library's reason {number}, which has no words here")
            }
        }
    }
}

#[cfg(test)]
mod tests {
    use super::{Dropped, Edition, Reason};

    #[test]
    fn every_edition_is_read_back() {
        for number in 0..16 {
            assert_eq!(Edition::read(number).number(), number);
        }
        assert_eq!([1, 2].map(Edition::read), [Edition::One, Edition::Two]);
    }

    #[test]
    fn every_reason_has_words() {
        for (number, reason) in [
            (3, Reason::OffGrid),
            (11, Reason::NoShape),
            (7, Reason::Unknown { number: 7 }),
        ] {
            let contour = 5;
            assert_eq!(Dropped::read(&[5, number]), Dropped { contour, reason });
            assert!(reason.to_string().contains(' '));
        }
    }
}
