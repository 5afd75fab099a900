//! What is refused for its size is refused before anything is allocated for it.

use std::alloc::{GlobalAlloc, Layout, System};
use std::cell::Cell;
use ukmerelt::drawing::{Command, Place};
use ukmerelt::flat::buffer::{FlatContoursBuffer, FlatShapesBuffer};
use ukmerelt::flat::file::salvage;
use ukmerelt::int::area::Area;
use ukmerelt::int::despike::{DeSpikeContour, DeSpikeShape, DeSpikeShapes};
use ukmerelt::int::path::ContourExtension;
use ukmerelt::int::shape::{IntContour, IntShape, IntShapes};
use ukmerelt::int::simple::{ContourSimplifier, SimpleContour, SimpleShape, SimpleShapes};
use ukmerelt::{IntPoint, Refused};

const MOST: usize = 65_536;

/// The system's allocator, which counts what a thread takes from it.
struct Counting;

thread_local! {
    static TAKEN: Cell<usize> = const { Cell::new(0) };
}

fn count(size: usize) {
    TAKEN.with(|taken| taken.set(taken.get() + size));
}

// SAFETY: each call is handed on as it came.
unsafe impl GlobalAlloc for Counting {
    unsafe fn alloc(&self, layout: Layout) -> *mut u8 {
        count(layout.size());
        System.alloc(layout)
    }

    unsafe fn alloc_zeroed(&self, layout: Layout) -> *mut u8 {
        count(layout.size());
        System.alloc_zeroed(layout)
    }

    unsafe fn realloc(&self, place: *mut u8, layout: Layout, size: usize) -> *mut u8 {
        count(size);
        System.realloc(place, layout, size)
    }

    unsafe fn dealloc(&self, place: *mut u8, layout: Layout) {
        System.dealloc(place, layout)
    }
}

#[global_allocator]
static COUNTING: Counting = Counting;

/// A call, why it is refused if it is, and how many bytes it takes.
type Asked = (&'static str, Option<Refused>, usize);

macro_rules! asked {
    ($($call:expr;)*) => {
        vec![$({
            let before = TAKEN.with(Cell::get);
            let refused = $call.err();
            (stringify!($call), refused, TAKEN.with(Cell::get) - before)
        }),*]
    };
}

fn zigzag(n: usize) -> IntContour {
    (0..n as i32).map(|i| IntPoint::new(i, i % 2)).collect()
}

/// Every call that can have too many points, with n of them; a set has them in two contours.
fn every_call(n: usize) -> Vec<Asked> {
    let point = IntPoint::ZERO;
    let contour = zigzag(n);
    let half = zigzag(n / 2);
    let rest = zigzag(n - n / 2);
    let shape: IntShape = vec![half.clone(), rest.clone()];
    let shapes: IntShapes = vec![vec![half.clone()], vec![], vec![rest.clone()]];
    let mut simplifier = ContourSimplifier::default();

    let contour_ranges = vec![[0, n / 2], [n / 2, n]];
    let contours = FlatContoursBuffer {
        points: contour.clone(),
        ranges: contour_ranges.clone(),
    };
    let set = FlatShapesBuffer {
        points: contour.clone(),
        contour_ranges,
        shape_ranges: vec![[0, 1], [1, 2]],
    };
    let mut becoming_contours = FlatContoursBuffer::default();
    let mut becoming_set = FlatShapesBuffer::default();
    let mut half_contours = FlatContoursBuffer::default();
    half_contours.set_with_contour(&half).unwrap();
    let mut half_set = FlatShapesBuffer::default();
    half_set.set_with_contour(&half).unwrap();
    let rest_shape = [rest.clone()];
    let drawing = vec![Command::Move(Place::default()); n];
    let (kinds, floats) = (vec![0; n], vec![0.0; 2 * n]);

    asked! {
        contour.area_two();
        contour.area();
        contour.is_convex();
        contour.is_clockwise_ordered();
        contour.contains_point(point);
        contour.locate(point);
        contour.is_simple();
        contour.has_no_spikes();
        contour.simplified();
        contour.despiked_contour();
        simplifier.simplify_contour(&contour);

        shape.area_two();
        shape.area();
        shape.is_simple();
        shape.has_no_spikes();
        shape.simplified();
        shape.despiked_shape();

        shapes.area_two();
        shapes.area();
        shapes.is_simple();
        shapes.has_no_spikes();
        shapes.simplified();
        shapes.despiked_shapes();

        contours.area_two();
        contours.area();
        contours.is_simple();
        contours.has_no_spikes();
        contours.in_shape(point);
        contours.simplified();
        contours.despiked_shape();
        contours.to_contours();
        becoming_contours.set_with_contour(&contour);
        becoming_contours.set_with_shape(&shape);
        becoming_contours.set_with_shapes(&shapes);
        half_contours.add_contour(&rest);

        set.area_two();
        set.area();
        set.is_simple();
        set.has_no_spikes();
        set.simplified();
        set.despiked_shapes();
        set.to_shapes();
        becoming_set.set_with_contour(&contour);
        becoming_set.set_with_shape(&shape);
        becoming_set.set_with_shapes(&shapes);
        half_set.add_shape(&rest_shape);

        contours.export_mm();
        FlatContoursBuffer::import_mm(&drawing);
        FlatContoursBuffer::import_mm_rows(&kinds, &floats);
    }
}

#[test]
fn points() {
    for (call, refused, taken) in every_call(MOST + 1) {
        assert_eq!((refused, taken), (Some(Refused::TooMany), 0), "{call}");
    }
    for (call, refused, _) in every_call(MOST) {
        assert_eq!(refused, None, "{call}");
    }
    let in_all: usize = every_call(MOST).iter().map(|asked| asked.2).sum();
    assert!(in_all > 8 * MOST, "the bytes are not counted");
}

#[test]
fn too_many_points_come_before_all_else() {
    let contours = FlatContoursBuffer {
        points: vec![IntPoint::new(i32::MAX, 0); MOST + 1],
        ranges: vec![[5, 99]],
    };
    let set = FlatShapesBuffer {
        points: contours.points.clone(),
        contour_ranges: contours.ranges.clone(),
        shape_ranges: vec![],
    };
    let mut more = contours.clone();
    let mut more_shapes = set.clone();
    for (call, refused, taken) in asked! {
        contours.is_simple();
        contours.simplified();
        contours.to_contours();
        contours.export_mm();
        more.add_contour(&[]);
        set.is_simple();
        set.simplified();
        set.to_shapes();
        set.write_set();
        set.write_set_2();
        more_shapes.add_shape(&[]);
    } {
        assert_eq!((refused, taken), (Some(Refused::TooMany), 0), "{call}");
    }
}

/// A drawing's faults come before its size, and are found without taking memory for it too.
#[test]
fn drawings() {
    let mut drawing = vec![Command::Move(Place::default()); 1_000_000];
    let kinds = vec![0; 1_000_000];
    let mut floats = vec![0.0; 2_000_000];
    for (place, refused) in [
        (Place::new(1e9, 0.0), Refused::OffGrid),
        (Place::new(0.0, f64::NAN), Refused::NotFinite),
    ] {
        drawing[999_999] = Command::Line(place);
        floats[1_999_998..].copy_from_slice(&[place.x, place.y]);
        for (call, answer, taken) in asked! {
            FlatContoursBuffer::import_mm(&drawing);
            FlatContoursBuffer::import_mm_rows(&kinds, &floats);
        } {
            assert_eq!((answer, taken), (Some(refused), 0), "{call}");
        }
    }
    let closed = vec![Command::Close; 1_000_000];
    for (call, answer, taken) in asked! {
        FlatContoursBuffer::import_mm(&closed);
        FlatContoursBuffer::import_mm_rows(&kinds, &[0.0]);
    } {
        assert_eq!((answer, taken), (Some(Refused::NoDrawing), 0), "{call}");
    }
}

#[test]
fn files() {
    let bytes = vec![0; 100_000_000];
    let points = FlatShapesBuffer {
        points: zigzag(8_192),
        contour_ranges: vec![[0, 8_192]],
        shape_ranges: vec![[0, 1]],
    };
    let contours = FlatShapesBuffer {
        points: vec![],
        contour_ranges: vec![[0, 0]; 32_768],
        shape_ranges: vec![[0, 32_768]],
    };
    for (call, refused, taken) in asked! {
        FlatShapesBuffer::read_set(&bytes);
        FlatShapesBuffer::read_set(&bytes[..MOST + 1]);
        salvage(&bytes);
        salvage(&bytes[..MOST + 1]);
        points.write_set();
        contours.write_set();
    } {
        assert_eq!((refused, taken), (Some(Refused::TooMany), 0), "{call}");
    }
    assert_eq!(
        FlatShapesBuffer::read_set(&bytes[..MOST]),
        Err(Refused::Edition)
    );
    assert_eq!(salvage(&bytes[..MOST]), Err(Refused::Edition));
}

#[test]
fn room_that_no_set_can_fill() {
    let before = TAKEN.with(Cell::get);
    let mut contours = FlatContoursBuffer::with_capacity(usize::MAX);
    contours.clear_and_reserve(usize::MAX, usize::MAX);
    let mut set = FlatShapesBuffer::with_capacity(usize::MAX, usize::MAX, usize::MAX);
    set.clear_and_reserve(usize::MAX, usize::MAX, usize::MAX);
    assert!(contours.points.capacity() >= MOST && set.points.capacity() >= MOST);
    assert!(TAKEN.with(Cell::get) - before < 100 * MOST);
}
