//! Drawings in millimetres brought in and given back, beside the plain arithmetic: a loop that rounds or divides each
//! coordinate, tests nothing, and makes neither contours nor commands.

use crate::linked::{call, Range};
use std::f64::consts::TAU;
use std::hint::black_box;

const MOVE: u8 = 0;
const LINE: u8 = 1;
const CLOSE: u8 = 2;

/// A drawing, and the rows of the set that it gives.
pub struct Drawing {
    pub name: &'static str,
    kinds: Vec<u8>,
    floats: Vec<f64>,
    points: Vec<i32>,
    records: Vec<Range>,
}

pub fn drawings() -> [Drawing; 2] {
    [
        drawing("drawing of 65536", &[&[MOVE][..], &[LINE; 65535], &[CLOSE]].concat()),
        drawing("drawing of 16384 boxes", &[MOVE, LINE, LINE, LINE, CLOSE].repeat(16384)),
    ]
}

/// The kinds, with places around a circle that are on no grid.
fn drawing(name: &'static str, kinds: &[u8]) -> Drawing {
    let places = kinds.iter().filter(|kind| **kind != CLOSE).count();
    let place = |i: usize| {
        let angle = i as f64 / places as f64 * TAU;
        [5.1e5 * angle.cos(), 5.1e5 * angle.sin()]
    };
    Drawing {
        name,
        kinds: kinds.to_vec(),
        floats: (0..places).flat_map(place).collect(),
        points: vec![0; 2 * places],
        records: vec![[0; 2]; kinds.iter().filter(|kind| **kind == MOVE).count()],
    }
}

#[inline(never)]
fn rounded(floats: &[f64], points: &mut [i32]) {
    for (point, float) in points.iter_mut().zip(floats) {
        *point = (float * 1024.0).round() as i32;
    }
}

#[inline(never)]
fn divided(points: &[i32], floats: &mut [f64]) {
    for (float, point) in floats.iter_mut().zip(points) {
        *float = *point as f64 / 1024.0;
    }
}

/// How many points a drawing gives.
fn import(kinds: &[u8], floats: &[f64], points: &mut [i32], records: &mut [Range]) -> i64 {
    call!(ukm_import_mm(kinds, floats; points, records;)).points as i64
}

/// How many places a set gives.
fn export(points: &[i32], records: &[Range], kinds: &mut [u8], floats: &mut [f64]) -> i64 {
    call!(ukm_export_mm(points, records; kinds, floats;)).floats as i64 / 2
}

/// A line for the way in and one for the way back.
pub fn lines(mut drawing: Drawing) {
    let Drawing { name, kinds, floats, points, records } = &mut drawing;
    let count = floats.len() / 2;
    let mut plain = vec![0; points.len()];
    crate::table::line(
        name,
        "import",
        count,
        &mut || {
            rounded(black_box(floats), &mut plain);
            count as i64
        },
        &mut || import(black_box(kinds), floats, points, records),
    );
    assert_eq!(plain, *points, "the points of {name} differ");
    let (mut kinds_back, mut floats_back) = (vec![0; kinds.len()], vec![0.0; floats.len()]);
    let mut plain = vec![0.0; floats.len()];
    crate::table::line(
        name,
        "export",
        count,
        &mut || {
            divided(black_box(points), &mut plain);
            count as i64
        },
        &mut || export(black_box(points), records, &mut kinds_back, &mut floats_back),
    );
    assert_eq!((plain, &mut kinds_back), (floats_back, kinds), "the way back of {name} differs");
}
