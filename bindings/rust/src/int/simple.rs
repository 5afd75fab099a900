//! Vertices whose two edges have cross product 0: equal neighbours, straight points, turns back.

use crate::flat::buffer::{FlatContoursBuffer, FlatShapesBuffer};
use crate::int::point::IntPoint;
use crate::int::shape::{IntContour, IntShape, IntShapes};
use crate::library::{self, Scratch};
use crate::refused::{At, Refused};
use crate::{Cleaned, LIMIT};

/// Whether one contour has such vertices, and the contour without them.
pub trait SimpleContour {
    /// Whether there are three or more points and no vertex whose two edges have cross product 0.
    fn is_simple(&self) -> Result<bool, Refused>;

    /// The contour without such vertices, or [`Refused::Collapsed`] where fewer than three points would stay.
    fn simplified(&self) -> Result<Cleaned<IntContour>, Refused>;
}

/// The same of a shape, contour by contour.
pub trait SimpleShape {
    /// Whether every contour is simple.
    fn is_simple(&self) -> Result<bool, Refused>;

    /// The shape with each contour simplified where it is not simple. A later contour that collapses is dropped;
    /// [`Refused::Collapsed`] where the first does.
    fn simplified(&self) -> Result<Cleaned<IntShape>, Refused>;
}

/// The same of shapes.
pub trait SimpleShapes {
    /// Whether every contour of every shape is simple.
    fn is_simple(&self) -> Result<bool, Refused>;

    /// The shapes, each simplified. One whose first contour collapses is dropped, and one of no contours stays.
    fn simplified(&self) -> Result<Cleaned<IntShapes>, Refused>;
}

impl SimpleContour for [IntPoint] {
    fn is_simple(&self) -> Result<bool, Refused> {
        library::is_simple(self)
            .read()
            .at(self, &[[0, self.len()]], LIMIT)
    }

    fn simplified(&self) -> Result<Cleaned<IntContour>, Refused> {
        ContourSimplifier::default().simplify_contour(self)
    }
}

impl SimpleShape for [IntContour] {
    fn is_simple(&self) -> Result<bool, Refused> {
        FlatContoursBuffer::of_shape(self)?.is_simple()
    }

    fn simplified(&self) -> Result<Cleaned<IntShape>, Refused> {
        let cleaned = FlatContoursBuffer::of_shape(self)?.simplified()?;
        Ok(cleaned.map(|flat| flat.contours()))
    }
}

impl SimpleShapes for [IntShape] {
    fn is_simple(&self) -> Result<bool, Refused> {
        FlatShapesBuffer::of_shapes(self)?.is_simple()
    }

    fn simplified(&self) -> Result<Cleaned<IntShapes>, Refused> {
        let cleaned = FlatShapesBuffer::of_shapes(self)?.simplified()?;
        Ok(cleaned.map(|flat| flat.shapes()))
    }
}

/// Scratch that is kept from one contour to the next.
#[derive(Debug, Default)]
pub struct ContourSimplifier {
    scratch: Scratch,
}

impl ContourSimplifier {
    /// The same as [`SimpleContour::simplified`].
    pub fn simplify_contour(
        &mut self,
        contour: &[IntPoint],
    ) -> Result<Cleaned<IntContour>, Refused> {
        let mut out = library::room(contour.len())?;
        library::simplified(contour, &mut self.scratch, &mut out)
            .read(out)
            .at(contour, &[[0, contour.len()]], LIMIT)
    }
}
