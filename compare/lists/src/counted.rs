//! How many cross products the original asks for, which the stand-in for i_float counts.

#[cfg(feature = "count")]
pub(crate) use i_float::count::crosses_of;

/// The published crate does not count: it is always 0.
#[cfg(not(feature = "count"))]
pub(crate) fn crosses_of<T>(work: impl FnOnce() -> T) -> (T, usize) {
    (work(), 0)
}

/// Whether the decisions that are answered are those of the original.
pub const COUNTED: bool = cfg!(feature = "count");
