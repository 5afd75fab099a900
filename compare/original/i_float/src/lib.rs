//! A stand-in for the crate i_float: as much of it as the given files of i_shape
//! use, at 32-bit coordinates, written from document 01's arithmetic and not from
//! the crate itself.
//!
//! What rests on it, and is therefore not the original's own word:
//! - cross(a, b) = ax·by - ay·bx and dot(a, b) = ax·bx + ay·by, over i64;
//! - the wrapping sum and product, and the half that cuts toward zero, of i64;
//! - `Triangle::is_clockwise` is strict: three points on one line are not clockwise.
//!
//! Differences of grid points lie within ±2,147,483,646, which an i32 holds, and
//! the cross and the dot of two of them within ±(2^63 - 2^34 + 8), which an i64
//! holds. The manifests have overflow checks on: a run stops where one would not.
//!
//! With the feature `count` every cross product is counted: the walks ask for one in each decision.

#[cfg(feature = "count")]
pub mod count;
pub mod int;
pub mod triangle;
