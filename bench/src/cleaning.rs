//! Sets cleaned and asked about: all contours as one shape, and as the shapes that they make.

use crate::flat::Flat;
use crate::inputs::{self, Point};
use crate::linked::call;
use crate::table::line;
use i_shape::int::area::Area;
use i_shape::int::despike::{DeSpikeShape, DeSpikeShapes};
use i_shape::int::path::ContourExtension;
use i_shape::int::shape::{IntShape, IntShapes};
use i_shape::int::simple::{SimpleShape, SimpleShapes};
use std::hint::black_box;

/// A kind of set: its name, and its shapes.
pub struct Kind {
    pub name: &'static str,
    pub shapes: IntShapes<i32>,
}

pub fn kinds() -> [Kind; 3] {
    let boxes = inputs::boxes(88172645463325252, 16384);
    [
        Kind { name: "set of 16384 boxes", shapes: boxes.into_iter().map(|contour| vec![contour]).collect() },
        Kind { name: "set of 400 shapes, clean", shapes: inputs::job(400, true) },
        Kind { name: "set of 400 shapes, mixed", shapes: inputs::job(400, false) },
    ]
}

/// A large box with 16,383 small ones in it, as one shape.
pub fn plate() -> Kind {
    let outline = [(0, 0), (3000, 0), (3000, 3000), (0, 3000)].map(|(x, y)| Point::new(x, y)).to_vec();
    let holes = inputs::boxes(362436069, 16383);
    Kind { name: "plate of 16383 holes", shapes: vec![[vec![outline], holes].concat()] }
}

/// A point of the plate beside all holes, some of which lie above its row, some below, and some in it.
const BESIDE: Point = Point { x: 2500, y: 700 };

/// The rows that a cleaner is lent.
struct Lent {
    next: Vec<u32>,
    prev: Vec<u32>,
    mark: Vec<u8>,
    out: Flat,
    fates: Vec<u8>,
}

impl Lent {
    fn new(set: &Flat) -> Lent {
        let n = set.count();
        let fates = vec![0; set.contours.len()];
        Lent { next: vec![0; n], prev: vec![0; n], mark: vec![0; n], out: set.room(), fates }
    }
}

/// Calls the cleaner of a shape, and answers the points, contours and shapes that it keeps.
macro_rules! cleaned_shape {
    ($name:ident, $set:expr, $lent:expr) => {{
        let (Flat { points, contours, .. }, Lent { next, prev, mark, out, .. }) = (black_box($set), &mut *$lent);
        let cleaned = call!($name(points, contours; next, prev, mark, out.points, out.contours;));
        [cleaned.points, cleaned.contours, 0]
    }};
}

/// The same, of shapes.
macro_rules! cleaned_shapes {
    ($name:ident, $set:expr, $lent:expr) => {{
        let (Flat { points, contours, shapes }, Lent { next, prev, mark, out, .. }) = (black_box($set), &mut *$lent);
        let cleaned = call!($name(points, contours, shapes; next, prev, mark, out.points, out.contours, out.shapes;));
        [cleaned.points, cleaned.contours, cleaned.shapes]
    }};
}

/// Calls the function that tells what becomes of each contour, and answers how many are kept.
macro_rules! fates {
    ($name:ident, $set:expr, $lent:expr) => {{
        let (Flat { points, contours, shapes }, Lent { next, prev, mark, fates, .. }) = (black_box($set), &mut *$lent);
        call!($name(points, contours, shapes; next, prev, mark, fates;)).count
    }};
}

type Original<T> = fn(&T) -> T;
type Cleaner = fn(&Flat, &mut Lent) -> [usize; 3];

const SHAPE_CLEANERS: [(&str, Original<IntShape<i32>>, Cleaner); 2] = [
    (
        "simplified_shape",
        |s| s[..].simplified().unwrap_or_default(),
        |set, lent| cleaned_shape!(ukm_simplified_shape, set, lent),
    ),
    (
        "despiked_shape",
        |s| s.despiked_shape().unwrap_or_default(),
        |set, lent| cleaned_shape!(ukm_despiked_shape, set, lent),
    ),
];

const SHAPES_CLEANERS: [(&str, Original<IntShapes<i32>>, Cleaner); 2] = [
    ("simplified_shapes", |s| s[..].simplified(), |set, lent| cleaned_shapes!(ukm_simplified_shapes, set, lent)),
    ("despiked_shapes", |s| s.despiked_shapes(), |set, lent| cleaned_shapes!(ukm_despiked_shapes, set, lent)),
];

type Teller = fn(&Flat, &mut Lent) -> usize;

/// Who has the original alone cleans the shapes, and counts what is left.
const FATES: [(&str, Original<IntShapes<i32>>, Teller); 2] = [
    ("simplified_fates", |s| s[..].simplified(), |set, lent| fates!(ukm_simplified_fates, set, lent)),
    ("despiked_fates", |s| s.despiked_shapes(), |set, lent| fates!(ukm_despiked_fates, set, lent)),
];

type Question<T> = fn(&T) -> i64;

const OF_A_SHAPE: [(&str, Question<IntShape<i32>>, Question<Flat>); 3] = [
    (
        "set_is_simple",
        |s| s[..].is_simple() as i64,
        |set| call!(ukm_set_is_simple(set.points, set.contours; ;)).yes as i64,
    ),
    (
        "set_has_no_spikes",
        |s| s.has_no_spikes() as i64,
        |set| call!(ukm_set_has_no_spikes(set.points, set.contours; ;)).yes as i64,
    ),
    ("set_area_two", |s| s[..].area_two(), |set| call!(ukm_set_area_two(set.points, set.contours; ;)).value),
];

const OF_SHAPES: [(&str, Question<IntShapes<i32>>, Question<Flat>); 3] = [
    (
        "shapes_is_simple",
        |s| s[..].is_simple() as i64,
        |set| call!(ukm_shapes_is_simple(set.points, set.contours, set.shapes; ;)).yes as i64,
    ),
    (
        "shapes_has_no_spikes",
        |s| s.has_no_spikes() as i64,
        |set| call!(ukm_shapes_has_no_spikes(set.points, set.contours, set.shapes; ;)).yes as i64,
    ),
    (
        "shapes_area_two",
        |s| s[..].area_two(),
        |set| call!(ukm_shapes_area_two(set.points, set.contours, set.shapes; ;)).value,
    ),
];

/// The original asks contours alone; this is what a caller would make of it.
fn in_shape(shape: &IntShape<i32>) -> i64 {
    let contains = |contour: &Vec<Point>| contour.contains_point(BESIDE);
    shape.split_first().is_some_and(|(outline, holes)| contains(outline) && !holes.iter().any(contains)) as i64
}

/// A line for the cleaner, of a shape or of shapes. What both keep must be the same.
fn cleaning<T>(kind: &str, name: &str, shapes: &T, set: &Flat, rust: Original<T>, ours: Cleaner, flat: fn(T) -> Flat) {
    let expected = flat(rust(shapes));
    let mut lent = Lent::new(set);
    line(
        kind,
        name,
        set.count(),
        &mut || {
            black_box(rust(black_box(shapes)));
            expected.count() as i64
        },
        &mut || ours(set, &mut lent)[0] as i64,
    );
    let [points, contours, shapes] = ours(set, &mut lent);
    assert_eq!(expected, lent.out.front(points, contours, shapes), "{name} differs on {kind}");
}

fn asking<T>(kind: &str, name: &str, shapes: &T, set: &Flat, rust: Question<T>, ours: Question<Flat>) {
    line(kind, name, set.count(), &mut || rust(black_box(shapes)), &mut || ours(black_box(set)));
}

pub fn lines(kind: &Kind) {
    let Kind { name, shapes } = kind;
    let shape: IntShape<i32> = shapes.concat();
    let set = Flat::of(shapes);
    for (function, rust, ours) in SHAPE_CLEANERS {
        cleaning(name, function, &shape, &set, rust, ours, |s| Flat { shapes: vec![], ..Flat::of(&[s]) });
    }
    for (function, rust, ours) in SHAPES_CLEANERS {
        cleaning(name, function, shapes, &set, rust, ours, |s| Flat::of(&s));
    }
    let mut lent = Lent::new(&set);
    for (function, rust, ours) in FATES {
        let kept = |cleaned: IntShapes<i32>| cleaned.iter().map(Vec::len).sum::<usize>() as i64;
        line(name, function, set.count(), &mut || kept(rust(black_box(shapes))), &mut || ours(&set, &mut lent) as i64);
    }
    for (function, rust, ours) in OF_A_SHAPE {
        asking(name, function, &shape, &set, rust, ours);
    }
    for (function, rust, ours) in OF_SHAPES {
        asking(name, function, shapes, &set, rust, ours);
    }
}

/// Whether a point is in the plate.
pub fn line_of_a_plate(plate: &Kind) {
    let shape = &plate.shapes[0];
    assert_eq!(in_shape(shape), 1);
    asking(plate.name, "in_shape", shape, &Flat::of(&plate.shapes), in_shape, |set| {
        call!(ukm_in_shape(set.points, set.contours; ; BESIDE.x, BESIDE.y)).yes as i64
    });
}
