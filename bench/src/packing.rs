//! Sets packed and enlarged, their ranges tested, and their contours read back.

use crate::cleaning::Kind;
use crate::flat::Flat;
use crate::inputs::{self, numbers};
use crate::linked::{call, Range};
use crate::table::line;
use i_shape::flat::buffer::{FlatContoursBuffer, FlatShapesBuffer};
use i_shape::int::shape::{IntContour, IntShape};
use std::hint::black_box;

// Of `bench/unpacking.rattle`; the library exports none of it.
#[link(name = "unpacking", kind = "static")]
extern "C" {
    fn bench_contour(points: *const i32, points_len: usize, ranges: *const Range, ranges_len: usize, k: usize)
        -> usize;
    fn bench_contour_of(
        points: *const i32,
        points_len: usize,
        contours: *const Range,
        contours_len: usize,
        shapes: *const Range,
        shapes_len: usize,
        s: usize,
        c: usize,
    ) -> usize;
}

/// One contour as a set; a set kept for many packings on both sides.
fn contour(kind: &str, contour: &IntContour<i32>) {
    let row = numbers(contour);
    let mut out = Flat::of(&[vec![contour.clone()]]).room();
    let mut buffer = FlatShapesBuffer::default();
    line(
        kind,
        "pack_contour",
        contour.len(),
        &mut || {
            buffer.set_with_contour(black_box(contour));
            buffer.points.len() as i64
        },
        &mut || {
            let row = black_box(&row);
            call!(ukm_pack_contour(row; out.points, out.contours, out.shapes;)).points as i64
        },
    );
    assert_eq!(Flat::from(&buffer), out, "pack_contour differs on {kind}");
}

/// Contours as one shape.
fn shape(kind: &str, shape: &IntShape<i32>) {
    let set = Flat::of(&[shape.clone()]);
    let mut out = set.room();
    let mut buffer = FlatShapesBuffer::default();
    line(
        kind,
        "pack_shape",
        set.count(),
        &mut || {
            buffer.set_with_shape(black_box(shape));
            buffer.points.len() as i64
        },
        &mut || {
            let Flat { points, contours, .. } = black_box(&set);
            call!(ukm_pack_shape(points, contours; out.points, out.contours, out.shapes;)).points as i64
        },
    );
    assert_eq!(Flat::from(&buffer), out, "pack_shape differs on {kind}");
}

fn shapes(kind: &str, shapes: &[IntShape<i32>]) {
    let set = Flat::of(shapes);
    let mut out = set.room();
    let mut buffer = FlatShapesBuffer::default();
    line(
        kind,
        "pack_shapes",
        set.count(),
        &mut || {
            buffer.set_with_shapes(black_box(shapes));
            buffer.points.len() as i64
        },
        &mut || {
            let Flat { points, contours, shapes } = black_box(&set);
            call!(ukm_pack_shapes(points, contours, shapes; out.points, out.contours, out.shapes;)).points as i64
        },
    );
    assert_eq!(Flat::from(&buffer), out, "pack_shapes differs on {kind}");
}

/// The last contour added to the others. The original puts it behind them, and takes it off again for the next call.
fn one_contour_more(kind: &str, contours: &[IntContour<i32>]) {
    let (last, others) = contours.split_last().expect("a set of some contours");
    let (set, row) = (Flat::of(&[others.to_vec()]), numbers(last));
    let mut out = Flat::of(&[contours.to_vec()]).room();
    let mut buffer = FlatContoursBuffer::default();
    buffer.set_with_shape(others);
    line(
        kind,
        "add_contour",
        out.count(),
        &mut || {
            buffer.add_contour(black_box(last));
            let count = buffer.points.len();
            buffer.points.truncate(count - last.len());
            buffer.ranges.pop();
            count as i64
        },
        &mut || {
            let Flat { points, contours, .. } = black_box(&set);
            call!(ukm_add_contour(points, contours, row; out.points, out.contours;)).points as i64
        },
    );
    let all = Flat::of(&[contours.to_vec()]);
    assert_eq!((all.points, all.contours), (out.points, out.contours), "add_contour differs on {kind}");
}

/// The last shape added to the others, as `one_contour_more`.
fn one_shape_more(kind: &str, shapes: &[IntShape<i32>]) {
    let (last, others) = shapes.split_last().expect("a set of some shapes");
    let (set, more, all) = (Flat::of(others), Flat::of(&[last.clone()]), Flat::of(shapes));
    let mut out = all.room();
    let mut buffer = FlatShapesBuffer::default();
    buffer.set_with_shapes(others);
    line(
        kind,
        "add_shape",
        all.count(),
        &mut || {
            buffer.add_shape(black_box(last));
            let count = buffer.points.len();
            buffer.points.truncate(set.count());
            buffer.contour_ranges.truncate(set.contours.len());
            buffer.shape_ranges.pop();
            count as i64
        },
        &mut || {
            let Flat { points, contours, shapes } = black_box(&set);
            let (numbers, ranges) = (&more.points, &more.contours);
            call!(ukm_add_shape(points, contours, shapes, numbers, ranges; out.points, out.contours, out.shapes;))
                .points as i64
        },
    );
    assert_eq!(all, out, "add_shape differs on {kind}");
}

/// Whether the ranges are sound, which the original does not ask, beside a plain loop.
fn ranges(kind: &str, set: &Flat) {
    line(kind, "ranges_sound", set.count(), &mut || sound(black_box(&set.contours), set.count()) as i64, &mut || {
        let ranges = black_box(&set.contours);
        call!(ukm_ranges_sound(ranges; ; set.count())) as i64
    });
}

#[inline(never)]
fn sound(ranges: &[Range], count: usize) -> bool {
    let mut end = 0;
    for &[start, next] in ranges {
        if start != end || next < start {
            return false;
        }
        end = next;
    }
    end == count
}

/// The sets that are read back: each contour asks for all of the set, so they are small.
pub fn small() -> [Kind; 2] {
    let boxes = inputs::boxes(88172645463325252, 1000);
    [
        Kind { name: "set of 1000 boxes", shapes: boxes.into_iter().map(|contour| vec![contour]).collect() },
        Kind { name: "set of 50 shapes, mixed", shapes: inputs::job(50, false) },
    ]
}

/// Every contour by its number, beside all of them at once.
fn contours(kind: &str, contours: &[IntContour<i32>]) {
    let set = Flat::of(&[contours.to_vec()]);
    let mut buffer = FlatContoursBuffer::default();
    buffer.set_with_shape(contours);
    let contour = |k| {
        let Flat { points, contours, .. } = black_box(&set);
        // SAFETY: each row is a vector, and only read.
        unsafe { bench_contour(points.as_ptr(), points.len(), contours.as_ptr(), contours.len(), k) }
    };
    line(
        kind,
        "contour",
        set.count(),
        &mut || black_box(&buffer).to_contours().iter().map(|contour| contour.len() as i64).sum(),
        &mut || (0..set.contours.len()).map(|k| contour(k) as i64 / 2).sum(),
    );
}

/// The same of shapes.
fn contours_of(kind: &str, shapes: &[IntShape<i32>]) {
    let set = Flat::of(shapes);
    let mut buffer = FlatShapesBuffer::default();
    buffer.set_with_shapes(shapes);
    let contour = |s, c| {
        let Flat { points, contours, shapes } = black_box(&set);
        let (points, contours, shapes) = (&points[..], &contours[..], &shapes[..]);
        // SAFETY: as in `contours`.
        unsafe {
            bench_contour_of(
                points.as_ptr(),
                points.len(),
                contours.as_ptr(),
                contours.len(),
                shapes.as_ptr(),
                shapes.len(),
                s,
                c,
            )
        }
    };
    let in_shape = |s: usize| (0..shapes[s].len()).map(|c| contour(s, c) as i64 / 2).sum::<i64>();
    line(
        kind,
        "contour_of",
        set.count(),
        &mut || black_box(&buffer).to_shapes().iter().flatten().map(|contour| contour.len() as i64).sum(),
        &mut || (0..shapes.len()).map(&in_shape).sum(),
    );
}

/// A line for each way to read a set back.
pub fn lines_back(kind: &Kind) {
    contours(kind.name, &kind.shapes.concat());
    contours_of(kind.name, &kind.shapes);
}

/// A line for each way to pack a set and to enlarge one.
pub fn lines(kind: &Kind) {
    let contours: IntShape<i32> = kind.shapes.concat();
    shape(kind.name, &contours);
    shapes(kind.name, &kind.shapes);
    one_contour_more(kind.name, &contours);
    one_shape_more(kind.name, &kind.shapes);
    ranges(kind.name, &Flat::of(&kind.shapes));
}

/// The kind of the one contour that is packed.
pub const CONTOUR: &str = "contour of 65536";

pub fn line_of_a_contour() {
    contour(CONTOUR, &inputs::circle(65_536));
}
