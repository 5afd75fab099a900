//! Sets of contours and of shapes in a few flat rows, what two of them are to each other, what becomes of each
//! contour in a cleaning, and the files that carry them.

pub mod buffer;
pub mod difference;
pub mod fate;
pub mod file;
