//! Spikes: vertices at which the way turns back.

use crate::flat::buffer::{FlatContoursBuffer, FlatShapesBuffer};
use crate::int::point::IntPoint;
use crate::int::shape::{IntContour, IntShape, IntShapes};
use crate::library::{self, Scratch};
use crate::refused::{At, Refused};
use crate::{Cleaned, LIMIT};

/// Whether one contour has spikes, and the contour without them.
pub trait DeSpikeContour {
    /// Whether, equal neighbours skipped, three or more points are left and the way turns back at none.
    fn has_no_spikes(&self) -> Result<bool, Refused>;

    /// The contour without spikes and without equal neighbours, or [`Refused::Collapsed`] where fewer than three points
    /// would stay.
    fn despiked_contour(&self) -> Result<Cleaned<IntContour>, Refused>;
}

/// The same of a shape, contour by contour.
pub trait DeSpikeShape {
    /// Whether no contour has spikes.
    fn has_no_spikes(&self) -> Result<bool, Refused>;

    /// The shape with each contour despiked where it has spikes. A later contour that collapses is dropped;
    /// [`Refused::Collapsed`] where the first does.
    fn despiked_shape(&self) -> Result<Cleaned<IntShape>, Refused>;
}

/// The same of shapes.
pub trait DeSpikeShapes {
    /// Whether no contour of any shape has spikes.
    fn has_no_spikes(&self) -> Result<bool, Refused>;

    /// The shapes, each despiked. One whose first contour collapses is dropped, and one of no contours stays.
    fn despiked_shapes(&self) -> Result<Cleaned<IntShapes>, Refused>;
}

impl DeSpikeContour for [IntPoint] {
    fn has_no_spikes(&self) -> Result<bool, Refused> {
        library::has_no_spikes(self)
            .read()
            .at(self, &[[0, self.len()]], LIMIT)
    }

    fn despiked_contour(&self) -> Result<Cleaned<IntContour>, Refused> {
        let mut out = library::room(self.len())?;
        library::despiked(self, &mut Scratch::default(), &mut out)
            .read(out)
            .at(self, &[[0, self.len()]], LIMIT)
    }
}

impl DeSpikeShape for [IntContour] {
    fn has_no_spikes(&self) -> Result<bool, Refused> {
        FlatContoursBuffer::of_shape(self)?.has_no_spikes()
    }

    fn despiked_shape(&self) -> Result<Cleaned<IntShape>, Refused> {
        let cleaned = FlatContoursBuffer::of_shape(self)?.despiked_shape()?;
        Ok(cleaned.map(|flat| flat.contours()))
    }
}

impl DeSpikeShapes for [IntShape] {
    fn has_no_spikes(&self) -> Result<bool, Refused> {
        FlatShapesBuffer::of_shapes(self)?.has_no_spikes()
    }

    fn despiked_shapes(&self) -> Result<Cleaned<IntShapes>, Refused> {
        let cleaned = FlatShapesBuffer::of_shapes(self)?.despiked_shapes()?;
        Ok(cleaned.map(|flat| flat.shapes()))
    }
}
