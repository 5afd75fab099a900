//! Closed contours of whole numbers, cleaned of straight points or of spikes, and asked about: area, winding,
//! convexity, containment. The work is done by `libukmerelt.a`, whose functions are proved to meet their contracts; this
//! crate lends it the rows and names things as i_shape does, in the same modules.
//!
//! ```
//! use ukmerelt::int::path::ContourExtension;
//! use ukmerelt::int::simple::SimpleContour;
//! use ukmerelt::{IntPoint, Refused};
//!
//! # fn main() -> Result<(), Refused> {
//! let contour = [[0, 0], [2, 0], [4, 0], [4, 4], [0, 4]].map(IntPoint::from);
//! assert!(contour.contains_point(IntPoint::new(1, 1))?);
//! let simplified = contour.simplified()?;
//! assert_eq!(simplified.kept, [[0, 0], [4, 0], [4, 4], [0, 4]].map(IntPoint::from));
//! assert_eq!((simplified.decisions, simplified.turns), (6, 6));
//! # Ok(())
//! # }
//! ```
//!
//! Coordinates and points asked about lie within [`LIMIT`] of 0, those of edition 1 files and of drawings within
//! [`NARROW_LIMIT`], and a contour or a set has at most 65,536 points. What is beyond is refused, as is all else that
//! i_shape would panic at or answer without sense: [`Refused`] says why.
#![deny(missing_docs)]

pub mod drawing;
pub mod flat;
pub mod int;
pub mod pool;

mod library;
mod refused;

pub use int::point::IntPoint;
pub use refused::Refused;

/// The largest coordinate of the grid, either side of 0: of contours, of sets, and of points asked about.
pub const LIMIT: i32 = 1_073_741_823;

/// The largest coordinate of the narrow grid, either side of 0: of set files of edition 1, read, written or salvaged, and
/// of drawings in millimetres, in and out.
///
/// A set that goes further is cleaned and asked about like any other, and refused as [`Refused::OffGridAt`] by
/// [`write_set`](flat::buffer::FlatShapesBuffer::write_set) and by
/// [`export_mm`](flat::buffer::FlatContoursBuffer::export_mm).
pub const NARROW_LIMIT: i32 = 536_870_912;

/// What a cleaning kept, after how many decisions, and in how many turns: those that decided, and those that stepped over
/// a marked point.
#[derive(Debug, Clone, PartialEq, Eq)]
pub struct Cleaned<T> {
    /// The contour, the shape or the set that is left.
    pub kept: T,
    /// How often the walk looked at a vertex and decided whether it stays.
    pub decisions: usize,
    /// How often it was at a vertex, to decide or to step over one that it had marked.
    pub turns: usize,
}

impl<T> Cleaned<T> {
    fn map<U>(self, f: impl FnOnce(T) -> U) -> Cleaned<U> {
        Cleaned {
            kept: f(self.kept),
            decisions: self.decisions,
            turns: self.turns,
        }
    }
}
