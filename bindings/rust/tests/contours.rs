use ukmerelt::int::area::Area;
use ukmerelt::int::despike::DeSpikeContour;
use ukmerelt::int::path::{ContourExtension, Location};
use ukmerelt::int::shape::IntContour;
use ukmerelt::int::simple::{ContourSimplifier, SimpleContour};
use ukmerelt::{Cleaned, IntPoint, Refused, LIMIT, NARROW_LIMIT};

fn contour<const N: usize>(points: [[i32; 2]; N]) -> IntContour {
    points.map(IntPoint::from).to_vec()
}

/// Kept after so many decisions, each turn of which decided.
fn kept<const N: usize>(
    points: [[i32; 2]; N],
    decisions: usize,
) -> Result<Cleaned<IntContour>, Refused> {
    Ok(Cleaned {
        kept: contour(points),
        decisions,
        turns: decisions,
    })
}

#[test]
fn a_triangle() {
    let c = contour([[0, 0], [4, 0], [0, 4]]);
    assert_eq!(c.area_two(), Ok(16));
    assert_eq!(c.area(), Ok(8));
    assert_eq!(c.is_clockwise_ordered(), Ok(false));
    assert_eq!(c.is_convex(), Ok(true));
    assert_eq!(c.is_simple(), Ok(true));
    assert_eq!(c.has_no_spikes(), Ok(true));
    assert_eq!(c.simplified(), kept([[0, 0], [4, 0], [0, 4]], 3));
}

#[test]
fn a_straight_point() {
    let c = contour([[0, 0], [2, 0], [4, 0], [4, 4], [0, 4]]);
    assert_eq!(c.is_simple(), Ok(false));
    assert_eq!(c.simplified(), kept([[0, 0], [4, 0], [4, 4], [0, 4]], 6));
    assert_eq!(
        c.despiked_contour(),
        kept([[0, 0], [2, 0], [4, 0], [4, 4], [0, 4]], 5)
    );
}

#[test]
fn a_spike() {
    let c = contour([[0, 0], [4, 0], [4, 4], [4, 8], [4, 4], [0, 4]]);
    assert_eq!(c.has_no_spikes(), Ok(false));
    assert_eq!(
        c.despiked_contour(),
        kept([[0, 0], [4, 0], [4, 4], [0, 4]], 9)
    );
    assert_eq!(c.simplified(), kept([[0, 0], [4, 0], [4, 4], [0, 4]], 9));
}

#[test]
fn a_step_over_a_marked_point_is_a_turn() {
    let counts =
        |cleaned: Cleaned<IntContour>| [cleaned.kept.len(), cleaned.decisions, cleaned.turns];
    let c = contour([[0, 0], [0, 1], [1, 0], [1, 1], [1, 1]]);
    assert_eq!(c.simplified().map(counts), Ok([4, 7, 8]));
    let c = contour([[0, 0], [0, 1], [0, 2], [1, 0], [1, 0]]);
    assert_eq!(c.despiked_contour().map(counts), Ok([4, 7, 8]));
}

#[test]
fn the_edges_of_a_square() {
    let c = contour([[0, 0], [4, 0], [4, 4], [0, 4]]);
    for (x, y, inside, location) in [
        (0, 2, true, Location::Boundary),
        (2, 0, true, Location::Boundary),
        (2, 2, true, Location::Inside),
        (4, 2, false, Location::Boundary),
        (2, 4, false, Location::Boundary),
        (4, 4, false, Location::Boundary),
        (5, 4, false, Location::Outside),
    ] {
        let point = IntPoint::new(x, y);
        assert_eq!(c.contains_point(point), Ok(inside), "({x},{y})");
        assert_eq!(c.locate(point), Ok(location), "({x},{y})");
    }
}

#[test]
fn what_has_no_inside_has_a_boundary() {
    let on = IntPoint::new(1, 1);
    for c in [
        contour([[1, 1]]),
        contour([[0, 0], [2, 2]]),
        contour([[1, 0], [1, 4], [1, 1]]),
    ] {
        assert_eq!(c.locate(on), Ok(Location::Boundary));
        assert_eq!(c.locate(IntPoint::new(0, 1)), Ok(Location::Outside));
    }
    assert_eq!(contour([]).locate(on), Ok(Location::Outside));
}

#[test]
fn a_pentagram_is_convex() {
    let c = contour([[0, 10], [6, -8], [-10, 3], [10, 3], [-6, -8]]);
    assert_eq!(c.is_convex(), Ok(true));
    assert_eq!(c.is_simple(), Ok(true));
}

#[test]
fn the_half_is_cut_toward_zero() {
    let c = contour([[0, 0], [0, 1], [1, 0]]);
    assert_eq!(c.area_two(), Ok(-1));
    assert_eq!(c.area(), Ok(0));
}

#[test]
fn nothing() {
    let c = contour([]);
    assert_eq!(c.area_two(), Err(Refused::Empty));
    assert_eq!(c.is_clockwise_ordered(), Err(Refused::Empty));
    assert_eq!(c.is_convex(), Ok(true));
    assert_eq!(c.is_simple(), Ok(false));
    assert_eq!(c.contains_point(IntPoint::ZERO), Ok(false));
    assert_eq!(c.simplified(), Err(Refused::Collapsed { decisions: 0 }));
}

#[test]
fn a_line_collapses() {
    let c = contour([[0, 0], [1, 0], [2, 0]]);
    assert_eq!(c.simplified(), Err(Refused::Collapsed { decisions: 1 }));
    assert_eq!(
        c.despiked_contour(),
        Err(Refused::Collapsed { decisions: 1 })
    );
}

#[test]
fn the_limits() {
    let on = contour([[-LIMIT, -LIMIT], [LIMIT, -LIMIT], [0, LIMIT]]);
    assert_eq!(on.is_simple(), Ok(true));
    let off_the_narrow = contour([[0, 0], [NARROW_LIMIT + 1, 0], [0, 4]]);
    assert_eq!(
        off_the_narrow.area_two(),
        Ok(4 * (i64::from(NARROW_LIMIT) + 1))
    );
    let off = contour([[0, 0], [LIMIT + 1, 0], [0, 4]]);
    let at = Refused::OffGridAt {
        contour: 0,
        point: 1,
    };
    assert_eq!(off.is_simple(), Err(at));
    assert_eq!(off.simplified(), Err(at));
    assert_eq!(off.despiked_contour(), Err(at));
    assert_eq!(off.area(), Err(at));
    assert_eq!(at.number(), 3);
    let words = format!("contour 0, point 1: {}", Refused::OffGrid);
    assert_eq!(at.to_string(), words);
    assert_eq!(
        on.contains_point(IntPoint::new(0, LIMIT + 1)),
        Err(Refused::OffGrid)
    );
    assert_eq!(
        on.locate(IntPoint::new(LIMIT + 1, 0)),
        Err(Refused::OffGrid)
    );
    assert_eq!(
        on.locate(IntPoint::new(LIMIT, -LIMIT)),
        Ok(Location::Boundary)
    );

    let whole = contour([
        [-LIMIT, -LIMIT],
        [LIMIT, -LIMIT],
        [LIMIT, LIMIT],
        [-LIMIT, LIMIT],
    ]);
    assert_eq!(whole.area_two(), Ok(9_223_372_019_674_906_632));
    assert_eq!(whole.is_convex(), Ok(true));

    let most: IntContour = (0..65_536).map(|i| IntPoint::new(i, i % 2)).collect();
    assert_eq!(most.is_simple().map(|_| ()), Ok(()));
    let more: IntContour = (0..65_537).map(|i| IntPoint::new(i, i % 2)).collect();
    assert_eq!(more.is_simple(), Err(Refused::TooMany));
    assert_eq!(more.despiked_contour(), Err(Refused::TooMany));
}

#[test]
fn scratch_that_is_kept() {
    let mut simplifier = ContourSimplifier::default();
    let long = contour([[0, 0], [2, 0], [4, 0], [4, 4], [0, 4]]);
    let short = contour([[0, 0], [4, 0], [0, 4]]);
    for c in [&short, &long, &short, &contour([]), &long] {
        assert_eq!(simplifier.simplify_contour(c), c.simplified());
    }
}

#[test]
fn a_refusal_in_words() {
    assert_eq!(Refused::Ranges.to_string(), "ranges that are not sound");
    let collapsed = Refused::Collapsed { decisions: 1 };
    assert_eq!(
        collapsed.to_string(),
        "collapsed: fewer than three points would stay (decisions made: 1)"
    );
    assert_eq!(collapsed.number(), 7);
    assert_eq!(format!("{collapsed:?}"), collapsed.to_string());
    let _: Box<dyn std::error::Error> = collapsed.into();
}
