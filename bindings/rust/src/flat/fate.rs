//! What becomes of each contour when shapes are cleaned.

use crate::flat::buffer::FlatShapesBuffer;
use crate::library::{self, Scratch};
use crate::refused::{At, Refused};
use crate::{Cleaned, LIMIT};

/// What becomes of a contour when its shape is cleaned.
#[derive(Debug, Clone, Copy, PartialEq, Eq)]
#[non_exhaustive]
pub enum Fate {
    /// 0: it is kept.
    Kept,
    /// 1: it collapsed.
    Collapsed,
    /// 2: it stood behind an outline that collapsed, and went with it.
    Behind,
    /// A fate that a later library has, and that this crate has no name for.
    Unknown {
        /// Its number.
        fate: u8,
    },
}

/// Cleaned shapes, and what became of each contour that they had.
#[derive(Debug, Clone, PartialEq)]
pub struct CleanedWithFates {
    /// The shapes that are left.
    pub cleaned: Cleaned<FlatShapesBuffer>,
    /// A fate for each contour of the set that was cleaned.
    pub fates: Vec<Fate>,
}

impl CleanedWithFates {
    /// The contours that went: the number of each in the set that was cleaned, from 0, and why.
    pub fn dropped(&self) -> impl Iterator<Item = (usize, Fate)> + '_ {
        let fates = self.fates.iter().copied().enumerate();
        fates.filter(|&(_, fate)| fate != Fate::Kept)
    }
}

impl FlatShapesBuffer {
    /// What becomes of each contour in [`simplified`](FlatShapesBuffer::simplified): as many are kept as that keeps, and
    /// in the same order.
    pub fn simplified_fates(&self) -> Result<Vec<Fate>, Refused> {
        self.fates(library::simplified_fates)
    }

    /// What becomes of each contour in [`despiked_shapes`](FlatShapesBuffer::despiked_shapes).
    pub fn despiked_fates(&self) -> Result<Vec<Fate>, Refused> {
        self.fates(library::despiked_fates)
    }

    /// The shapes [`simplified`](FlatShapesBuffer::simplified), and what became of each contour.
    pub fn simplified_with_fates(&self) -> Result<CleanedWithFates, Refused> {
        let cleaned = self.simplified()?;
        let fates = self.simplified_fates()?;
        Ok(CleanedWithFates { cleaned, fates })
    }

    /// The shapes [despiked](FlatShapesBuffer::despiked_shapes), and what became of each contour.
    pub fn despiked_shapes_with_fates(&self) -> Result<CleanedWithFates, Refused> {
        let cleaned = self.despiked_shapes()?;
        let fates = self.despiked_fates()?;
        Ok(CleanedWithFates { cleaned, fates })
    }

    fn fates(&self, tell: library::Fates) -> Result<Vec<Fate>, Refused> {
        library::at_most(self.points.len())?;
        let mut fates = vec![0; self.contour_ranges.len()];
        tell(
            &self.points,
            &self.contour_ranges,
            &self.shape_ranges,
            &mut Scratch::default(),
            &mut fates,
        )
        .read_fates(&fates)
        .at(&self.points, &self.contour_ranges, LIMIT)
    }
}

impl Fate {
    /// Reads an entry of the library's row.
    pub(crate) fn read(&fate: &u8) -> Self {
        match fate {
            0 => Fate::Kept,
            1 => Fate::Collapsed,
            2 => Fate::Behind,
            fate => Fate::Unknown { fate },
        }
    }
}
