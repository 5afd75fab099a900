//! The functions of the library that are measured, in the order of `original` and with the same answers.

// No program takes all of it.
#![allow(dead_code)]

#[path = "../../compare/scale/src/library/answer.rs"]
mod answer;
#[path = "../../bindings/rust/src/library/raw.rs"]
pub mod raw;

use crate::inputs::ASKED;

/// A start and an end.
pub type Range = [usize; 2];

/// A contour of a pool: its start, its end, its tool and its press.
pub type PoolRecord = [usize; 4];

/// Calls a function with the rows that it reads, the rows that it is lent, and plain numbers.
macro_rules! call {
    ($name:ident($($read:expr),*; $($lent:expr),*; $($number:expr),*)) => {
        // SAFETY: each row is a slice or a vector, and no lent row overlaps another.
        unsafe { $crate::linked::raw::$name($($read.as_ptr(), $read.len(),)* $($lent.as_mut_ptr(), $lent.len(),)* $($number),*) }
    };
}
#[allow(unused_imports)]
pub(crate) use call;

pub type Function = fn(&[i32], &mut Rows) -> i64;

pub const FUNCTIONS: [(&str, Function); 8] = [
    ("simplified", |p, Rows { next, prev, mark, out }| call!(ukm_simplified(p; next, prev, mark, out;)).points as i64),
    ("despiked", |p, Rows { next, prev, mark, out }| call!(ukm_despiked(p; next, prev, mark, out;)).points as i64),
    ("is_simple", |p, _| call!(ukm_is_simple(p; ;)).yes as i64),
    ("has_no_spikes", |p, _| call!(ukm_has_no_spikes(p; ;)).yes as i64),
    ("is_convex", |p, _| call!(ukm_is_convex(p; ;)).yes as i64),
    ("area_two", |p, _| call!(ukm_area_two(p; ;)).value),
    ("is_clockwise", |p, _| call!(ukm_is_clockwise(p; ;)).yes as i64),
    ("contains", |p, _| call!(ukm_contains(p; ; ASKED.0, ASKED.1)).yes as i64),
];

/// The rows that a cleaner is lent.
pub struct Rows {
    next: Vec<u32>,
    prev: Vec<u32>,
    mark: Vec<u8>,
    pub out: Vec<i32>,
}

impl Rows {
    /// Rows for contours of up to `points` points.
    pub fn new(points: usize) -> Self {
        Rows {
            next: vec![0; points],
            prev: vec![0; points],
            mark: vec![0; points],
            out: vec![0; 2 * points],
        }
    }
}
