use ukmerelt::flat::buffer::FlatShapesBuffer;
use ukmerelt::flat::fate::Fate::{self, Behind, Collapsed, Kept};
use ukmerelt::int::shape::{IntContour, IntShape};
use ukmerelt::{IntPoint, Refused};

fn contour<const N: usize>(points: [[i32; 2]; N]) -> IntContour {
    points.map(IntPoint::from).to_vec()
}

fn square(from: i32, to: i32) -> IntContour {
    contour([[from, from], [to, from], [to, to], [from, to]])
}

fn line() -> IntContour {
    contour([[2, 2], [4, 4], [6, 6]])
}

fn set(shapes: &[IntShape]) -> FlatShapesBuffer {
    let mut set = FlatShapesBuffer::default();
    set.set_with_shapes(shapes).unwrap();
    set
}

/// Both cleaners tell the same of the set, and keep as many contours as they tell.
fn both(shapes: &[IntShape], fates: &[Fate]) {
    let set = set(shapes);
    assert_eq!(set.simplified_fates().unwrap(), fates);
    assert_eq!(set.despiked_fates().unwrap(), fates);
    let kept = fates.iter().filter(|&&fate| fate == Kept).count();
    assert_eq!(set.simplified().unwrap().kept.contour_ranges.len(), kept);
    assert_eq!(
        set.despiked_shapes().unwrap().kept.contour_ranges.len(),
        kept
    );
}

#[test]
fn a_collapsed_hole_goes_and_the_others_stay() {
    both(
        &[vec![square(0, 8), line(), square(2, 6)]],
        &[Kept, Collapsed, Kept],
    );
}

#[test]
fn a_hole_behind_a_collapsed_outline_goes_with_it() {
    both(
        &[
            vec![square(0, 8)],
            vec![line(), square(2, 6), line()],
            vec![],
            vec![square(0, 4)],
        ],
        &[Kept, Collapsed, Behind, Behind, Kept],
    );
}

#[test]
fn a_cleaning_answers_what_was_dropped() {
    let set = set(&[vec![square(0, 8)], vec![line(), square(2, 6)]]);
    let told = set.simplified_with_fates().unwrap();
    assert_eq!(told.cleaned, set.simplified().unwrap());
    let dropped: Vec<_> = told.dropped().collect();
    assert_eq!(dropped, [(1, Collapsed), (2, Behind)]);
}

#[test]
fn an_empty_outline_collapses() {
    both(&[vec![contour([]), square(0, 4)]], &[Collapsed, Behind]);
    both(&[], &[]);
    both(&[vec![]], &[]);
}

#[test]
fn what_the_library_refuses_is_refused() {
    let mut set = set(&[vec![square(0, 8)]]);
    set.shape_ranges = vec![[0, 2]];
    assert_eq!(set.despiked_fates(), Err(Refused::Ranges));
    set.shape_ranges = vec![[0, 1]];
    set.points[0] = IntPoint::new(i32::MAX, 0);
    let off = Refused::OffGridAt {
        contour: 0,
        point: 0,
    };
    assert_eq!(set.simplified_fates(), Err(off));
    assert_eq!(set.despiked_shapes_with_fates(), Err(off));
    set.points = vec![IntPoint::ZERO; 65_537];
    assert_eq!(set.simplified_fates(), Err(Refused::TooMany));
}
