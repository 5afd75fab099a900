//! The functions of the Rust original that are measured, each with its answer as a number: of a cleaner the
//! points it keeps, 0 for none; of a verdict 1 for yes.

use crate::inputs::{Point, ASKED};
use i_shape::int::area::Area;
use i_shape::int::despike::DeSpikeContour;
use i_shape::int::path::ContourExtension;
use i_shape::int::simple::SimpleContour;

pub type Function = fn(&Vec<Point>) -> i64;

pub const FUNCTIONS: [(&str, Function); 8] = [
    ("simplified", |c| kept(c[..].simplified())),
    ("despiked", |c| kept(c.despiked_contour())),
    ("is_simple", |c| c[..].is_simple() as i64),
    ("has_no_spikes", |c| c.has_no_spikes() as i64),
    ("is_convex", |c| c.is_convex() as i64),
    ("area_two", |c| c.area_two()),
    ("is_clockwise", |c| c.is_clockwise_ordered() as i64),
    ("contains", |c| c.contains_point(Point::new(ASKED.0, ASKED.1)) as i64),
];

fn kept(contour: Option<Vec<Point>>) -> i64 {
    contour.map_or(0, |c| c.len() as i64)
}
