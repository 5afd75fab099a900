//! The given files of i_shape 5.0.0, compiled unchanged: `int::{area, count, despike,
//! path, simple}` and `flat::buffer`. The build script copies them byte for byte.
//! Only the aliases of `shape` are ours: the file they come from was not given.

extern crate alloc;

pub mod shape;

include!(concat!(env!("OUT_DIR"), "/given.rs"));
