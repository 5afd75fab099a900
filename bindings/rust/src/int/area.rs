//! The area of a contour, a shape or a set.

use crate::flat::buffer::{FlatContoursBuffer, FlatShapesBuffer};
use crate::int::point::IntPoint;
use crate::int::shape::{IntContour, IntShape};
use crate::library;
use crate::refused::{At, Refused};
use crate::LIMIT;

/// Area, counter-clockwise positive.
///
/// Refused as [`Refused::Empty`] where a contour has no points, as `TooMany` or `OffGridAt`, and of a set as `Ranges`.
pub trait Area {
    /// The doubled area, modulo 2^64 in the range of `i64`; of many contours the sum of theirs.
    fn area_two(&self) -> Result<i64, Refused>;

    /// Its half, cut toward zero.
    fn area(&self) -> Result<i64, Refused>;
}

impl Area for [IntPoint] {
    fn area_two(&self) -> Result<i64, Refused> {
        library::area_two(self)
            .read()
            .at(self, &[[0, self.len()]], LIMIT)
    }

    fn area(&self) -> Result<i64, Refused> {
        library::area(self)
            .read()
            .at(self, &[[0, self.len()]], LIMIT)
    }
}

impl Area for FlatContoursBuffer {
    fn area_two(&self) -> Result<i64, Refused> {
        library::set_area_two(&self.points, &self.ranges).read().at(
            &self.points,
            &self.ranges,
            LIMIT,
        )
    }

    fn area(&self) -> Result<i64, Refused> {
        library::set_area(&self.points, &self.ranges)
            .read()
            .at(&self.points, &self.ranges, LIMIT)
    }
}

impl Area for FlatShapesBuffer {
    fn area_two(&self) -> Result<i64, Refused> {
        library::shapes_area_two(&self.points, &self.contour_ranges, &self.shape_ranges)
            .read()
            .at(&self.points, &self.contour_ranges, LIMIT)
    }

    fn area(&self) -> Result<i64, Refused> {
        library::shapes_area(&self.points, &self.contour_ranges, &self.shape_ranges)
            .read()
            .at(&self.points, &self.contour_ranges, LIMIT)
    }
}

impl Area for [IntContour] {
    fn area_two(&self) -> Result<i64, Refused> {
        FlatContoursBuffer::of_shape(self)?.area_two()
    }

    fn area(&self) -> Result<i64, Refused> {
        FlatContoursBuffer::of_shape(self)?.area()
    }
}

impl Area for [IntShape] {
    fn area_two(&self) -> Result<i64, Refused> {
        FlatShapesBuffer::of_shapes(self)?.area_two()
    }

    fn area(&self) -> Result<i64, Refused> {
        FlatShapesBuffer::of_shapes(self)?.area()
    }
}
