use ukmerelt::flat::buffer::{FlatContoursBuffer, FlatShapesBuffer};
use ukmerelt::int::area::Area;
use ukmerelt::int::despike::{DeSpikeShape, DeSpikeShapes};
use ukmerelt::int::shape::{IntContour, IntShape};
use ukmerelt::int::simple::{SimpleShape, SimpleShapes};
use ukmerelt::{Cleaned, IntPoint, Refused, LIMIT, NARROW_LIMIT};

fn contour<const N: usize>(points: [[i32; 2]; N]) -> IntContour {
    points.map(IntPoint::from).to_vec()
}

fn square(from: i32, to: i32) -> IntContour {
    contour([[from, from], [to, from], [to, to], [from, to]])
}

fn line() -> IntContour {
    contour([[2, 2], [4, 4], [6, 6]])
}

/// A square with a point in its lower edge.
fn straight() -> IntContour {
    contour([[0, 0], [4, 0], [8, 0], [8, 8], [0, 8]])
}

#[test]
fn a_shape_with_a_hole() {
    let shape: IntShape = vec![square(0, 8), square(2, 6)];
    assert_eq!(shape.is_simple(), Ok(true));
    assert_eq!(shape.has_no_spikes(), Ok(true));
    assert_eq!(shape.area_two(), Ok(2 * (64 + 16)));
    assert_eq!(shape.area(), Ok(64 + 16));

    let mut flat = FlatContoursBuffer::default();
    flat.set_with_shape(&shape).unwrap();
    assert_eq!(flat.ranges, [[0, 4], [4, 8]]);
    assert_eq!(flat.to_contours(), Ok(shape));
    assert_eq!(flat.in_shape(IntPoint::new(1, 1)), Ok(true));
    assert_eq!(flat.in_shape(IntPoint::new(3, 3)), Ok(false));
    assert_eq!(flat.as_first_contour(), square(0, 8));
}

#[test]
fn a_pin_on_a_rim_has_material() {
    let mut plate = FlatContoursBuffer::default();
    plate
        .set_with_shape(&[square(0, 8), square(2, 6), contour([])])
        .unwrap();
    for (x, y, held) in [
        (2, 4, true),
        (6, 4, true),
        (4, 2, true),
        (4, 6, true),
        (6, 6, true),
        (4, 4, false),
        (0, 4, true),
        (8, 8, true),
        (9, 4, false),
    ] {
        assert_eq!(plate.in_shape(IntPoint::new(x, y)), Ok(held), "({x},{y})");
    }
    let off = IntPoint::new(0, LIMIT + 1);
    assert_eq!(plate.in_shape(off), Err(Refused::OffGrid));
}

#[test]
fn cleaning_a_shape() {
    let shape: IntShape = vec![straight(), line(), square(2, 6)];
    let cleaned = Cleaned {
        kept: vec![square(0, 8), square(2, 6)],
        decisions: 6 + 1,
        turns: 6 + 1,
    };
    assert_eq!(shape.simplified(), Ok(cleaned));
    let despiked = shape.despiked_shape().unwrap();
    assert_eq!(despiked.kept, [straight(), square(2, 6)]);

    let fallen: IntShape = vec![line(), square(0, 8)];
    assert_eq!(
        fallen.simplified(),
        Err(Refused::Collapsed { decisions: 1 })
    );
    let none: IntShape = vec![];
    assert_eq!(none.simplified().map(|cleaned| cleaned.kept), Ok(none));
}

#[test]
fn cleaning_shapes() {
    let shapes = [
        vec![straight(), line()],
        vec![line(), square(0, 8)],
        vec![],
        vec![square(0, 8)],
    ];
    assert_eq!(shapes.is_simple(), Ok(false));
    let cleaned = shapes.simplified().unwrap();
    assert_eq!(
        cleaned.kept,
        [vec![square(0, 8)], vec![], vec![square(0, 8)]]
    );
    assert_eq!(cleaned.decisions, 6 + 1 + 1);
    assert_eq!(cleaned.turns, 6 + 1 + 1);
    let despiked = shapes.despiked_shapes().unwrap();
    assert_eq!(
        despiked.kept,
        [vec![straight()], vec![], vec![square(0, 8)]]
    );
}

#[test]
fn building_contours() {
    let mut set = FlatContoursBuffer::with_capacity(8);
    assert!(set.is_empty());
    set.set_with_contour(&square(0, 8)).unwrap();
    assert!(set.is_single_contour());
    set.add_contour(&line()).unwrap();
    assert_eq!(set.ranges, [[0, 4], [4, 7]]);
    assert_eq!(set.to_contours(), Ok(vec![square(0, 8), line()]));

    let before = set.clone();
    let off = contour([[0, 0], [LIMIT + 1, 0], [0, 1]]);
    assert_eq!(set.add_contour(&off), Err(Refused::OffGrid));
    assert_eq!(set.set_with_contour(&off), Err(Refused::OffGrid));
    assert_eq!(set, before);

    set.set_with_shapes(&[vec![line()], vec![], vec![square(0, 8)]])
        .unwrap();
    assert_eq!(set.ranges, [[0, 3], [3, 7]]);
    set.as_first_contour_mut()[0] = IntPoint::new(1, 1);
    assert_eq!(set.points[0], IntPoint::new(1, 1));
    set.clear_and_reserve(8, 1);
    assert!(set.is_empty());
}

#[test]
fn building_shapes() {
    let mut set = FlatShapesBuffer::with_capacity(8, 2, 1);
    set.set_with_contour(&square(0, 8)).unwrap();
    assert_eq!(set.to_shapes(), Ok(vec![vec![square(0, 8)]]));
    set.set_with_shape(&[square(0, 8), square(2, 6)]).unwrap();
    assert_eq!(set.shape_ranges, [[0, 2]]);
    set.add_shape(&[]).unwrap();
    set.add_shape(&[line()]).unwrap();
    assert_eq!(set.shape_ranges, [[0, 2], [2, 2], [2, 3]]);

    let shapes = vec![vec![square(0, 8), square(2, 6)], vec![], vec![line()]];
    assert_eq!(set.to_shapes(), Ok(shapes.clone()));
    let mut again = FlatShapesBuffer::default();
    again.set_with_shapes(&shapes).unwrap();
    assert_eq!(again, set);
    assert_eq!(again.area_two(), shapes.area_two());
    assert_eq!(again.has_no_spikes(), Ok(false));
}

#[test]
fn ranges_that_are_not_sound() {
    let mut set = FlatContoursBuffer {
        points: square(0, 8),
        ranges: vec![[0, 3]],
    };
    assert_eq!(set.is_simple(), Err(Refused::Ranges));
    assert_eq!(set.to_contours(), Err(Refused::Ranges));
    assert_eq!(set.simplified(), Err(Refused::Ranges));
    assert_eq!(set.add_contour(&line()), Err(Refused::Ranges));
    assert_eq!(set.as_first_contour().len(), 3);
    set.ranges = vec![[5, 2]];
    assert_eq!(set.as_first_contour(), []);
    set.ranges = vec![];
    assert_eq!(set.as_first_contour(), square(0, 8));
}

#[test]
fn shape_ranges_that_are_not_sound() {
    for shape_ranges in [
        vec![],
        vec![[5, 99]],
        vec![[0, 2]],
        vec![[0, 1], [0, 1]],
        vec![[1, 1]],
        vec![[0, 1], [1, 0]],
    ] {
        let mut set = FlatShapesBuffer {
            points: square(0, 8),
            contour_ranges: vec![[0, 4]],
            shape_ranges,
        };
        assert_eq!(set.is_simple(), Err(Refused::Ranges));
        assert_eq!(set.has_no_spikes(), Err(Refused::Ranges));
        assert_eq!(set.area_two(), Err(Refused::Ranges));
        assert_eq!(set.area(), Err(Refused::Ranges));
        assert_eq!(set.simplified(), Err(Refused::Ranges));
        assert_eq!(set.despiked_shapes(), Err(Refused::Ranges));
        assert_eq!(set.to_shapes(), Err(Refused::Ranges));
        assert_eq!(set.write_set(), Err(Refused::Ranges));
        assert_eq!(set.add_shape(&[]), Err(Refused::Ranges));
        set.shape_ranges = vec![[0, 0], [0, 1], [1, 1]];
        assert_eq!(set.is_simple(), Ok(true));
        assert_eq!(set.has_no_spikes(), Ok(true));
        assert_eq!(set.area_two(), Ok(2 * 64));
        assert_eq!(set.area(), Ok(64));
    }
}

#[test]
fn a_set_off_the_narrow_grid_is_answered_and_not_carried() {
    for number in [NARROW_LIMIT + 1, -NARROW_LIMIT - 1, LIMIT, -LIMIT] {
        let mut set = FlatContoursBuffer::default();
        set.set_with_contour(&contour([[0, 0], [number, 0], [0, 1]]))
            .unwrap();
        assert_eq!(set.area_two(), Ok(i64::from(number)));
        assert_eq!(set.in_shape(IntPoint::new(number, 0)), Ok(true));
        let at = Refused::OffGridAt {
            contour: 0,
            point: 1,
        };
        assert_eq!(set.export_mm(), Err(at));
        let mut shapes = FlatShapesBuffer::default();
        shapes.add_shape(&[set.points]).unwrap();
        assert_eq!(shapes.is_simple(), Ok(true));
        assert_eq!(shapes.write_set(), Err(at));
    }
}

#[test]
fn ranges_come_before_the_grid_and_before_an_empty_contour() {
    let mut set = FlatShapesBuffer {
        points: contour([[0, 0], [LIMIT + 1, 0], [0, 1]]),
        contour_ranges: vec![[0, 3], [3, 3]],
        shape_ranges: vec![],
    };
    assert_eq!(set.area(), Err(Refused::Ranges));
    set.shape_ranges = vec![[0, 2]];
    let at = Refused::OffGridAt {
        contour: 0,
        point: 1,
    };
    assert_eq!(set.area(), Err(at));
    set.contour_ranges = vec![[0, 0], [0, 1], [1, 3]];
    set.shape_ranges = vec![[0, 3]];
    let at = Refused::OffGridAt {
        contour: 2,
        point: 0,
    };
    assert_eq!(set.simplified(), Err(at));
    set.contour_ranges = vec![[0, 3], [3, 3]];
    set.shape_ranges = vec![[0, 2]];
    set.points[1].x = 1;
    assert_eq!(set.area(), Err(Refused::Empty));
    assert_eq!(set.is_simple(), Ok(false));
}
