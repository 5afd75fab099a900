//! Convexity, winding, and where a point lies.

use crate::int::point::IntPoint;
use crate::library;
use crate::refused::{At, Refused};
use crate::LIMIT;

/// Where a point lies of a contour; as a number it is the library's.
#[derive(Debug, Clone, Copy, PartialEq, Eq, Hash)]
#[repr(u8)]
pub enum Location {
    /// Neither on an edge nor inside.
    Outside = 0,
    /// On a closed edge: its ends and all between, single points and doubled edges included.
    Boundary = 1,
    /// On no edge, and by the parity of those to its right.
    Inside = 2,
}

impl Location {
    /// Reads a place of the library, which has no others.
    pub(crate) fn read(place: u8) -> Self {
        match place {
            1 => Location::Boundary,
            2 => Location::Inside,
            _ => Location::Outside,
        }
    }
}

/// Questions about one contour. Refused as `TooMany` or `OffGridAt`, and as `OffGrid` for the asked point.
pub trait ContourExtension {
    /// Whether all turns have one sign and no edge reverses, equal neighbours skipped.
    fn is_convex(&self) -> Result<bool, Refused>;

    /// Whether the doubled area is at or below 0; refused as `Empty` where there are no points.
    fn is_clockwise_ordered(&self) -> Result<bool, Refused>;

    /// Whether the point is inside, by the parity of the edges to its right: on the boundary half-open, as i_shape's
    /// answer is.
    fn contains_point(&self, point: IntPoint) -> Result<bool, Refused>;

    /// Whether the point is inside, on the boundary or outside, the boundary first.
    fn locate(&self, point: IntPoint) -> Result<Location, Refused>;
}

impl ContourExtension for [IntPoint] {
    fn is_convex(&self) -> Result<bool, Refused> {
        library::is_convex(self)
            .read()
            .at(self, &[[0, self.len()]], LIMIT)
    }

    fn is_clockwise_ordered(&self) -> Result<bool, Refused> {
        library::is_clockwise(self)
            .read()
            .at(self, &[[0, self.len()]], LIMIT)
    }

    fn contains_point(&self, point: IntPoint) -> Result<bool, Refused> {
        library::contains(self, point)
            .read()
            .at(self, &[[0, self.len()]], LIMIT)
    }

    fn locate(&self, point: IntPoint) -> Result<Location, Refused> {
        library::locate(self, point)
            .read()
            .at(self, &[[0, self.len()]], LIMIT)
    }
}
