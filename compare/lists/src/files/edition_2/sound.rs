//! Sound files of edition 2.

use super::super::case::Case;
use super::super::sound::{exact, file_of};
use crate::point::{Point, LIMIT, NARROW};
use crate::rng::Rng;
use crate::sets::flat::Set;
use crate::sets::random;
use requests::edition::Edition;
use requests::edition_2::write;

/// The file that the programs are shown with.
pub fn example() -> Vec<Case> {
    vec![exact(include_bytes!("../../../../../examples/gasket2.set"))]
}

/// First points at the ends of both grids, around zero, and with ones and zeros in every byte; and steps between them.
pub fn coordinates() -> Vec<Case> {
    let mut chosen = vec![0, 1, -1, LIMIT, LIMIT - 1, -LIMIT, 1 - LIMIT];
    chosen.extend([NARROW, NARROW + 1, -NARROW, -NARROW - 1]);
    chosen.extend([0x0102_0304, 0x1020_3040, 0x00ff_00ff, -0x0102_0304]);
    let file = |contour: &[Point]| exact(&write(&[vec![contour.to_vec()]]));
    let mut cases = vec![];
    for &number in &chosen {
        cases.push(file(&[[number, 5]]));
        cases.push(file(&[[-6, number], [-6, 0], [number, 0]]));
        cases.push(file(&[[-number, number], [number, -number]]));
    }
    cases
}

/// Files of up to five shapes of up to four contours.
pub fn random() -> Vec<Case> {
    let rng = &mut Rng::new(605);
    let cases = (0..120).map(|_| exact(&random_file(rng)));
    cases.collect()
}

/// Half of them of sets from all over the grid, half of contours that go in steps of a width of their own.
pub fn random_file(rng: &mut Rng) -> Vec<u8> {
    let mut set = match rng.below(2) {
        0 => random::set(LIMIT, rng),
        _ => stepped(rng),
    };
    set.shapes.retain(|[start, end]| start < end);
    file_of(Edition::Two, &set)
}

/// Up to three shapes of up to three contours of up to nine points.
fn stepped(rng: &mut Rng) -> Set {
    let mut shapes = vec![];
    for _ in 0..rng.below(4) {
        let contours = rng.below(4);
        shapes.push((0..contours).map(|_| strolled(9, rng)).collect());
    }
    Set::of(&shapes)
}

/// Up to so many points that go in steps of a width of their own.
pub fn strolled(most: usize, rng: &mut Rng) -> Vec<Point> {
    let count = rng.below(most + 1);
    stroll(count, rng)
}

/// So many points, each a step of some width from the one before, and none off the grid.
pub fn stroll(count: usize, rng: &mut Rng) -> Vec<Point> {
    let reach = i32::MAX >> (32 - rng.between(1, 32));
    let middle = rng.pick(&[9, NARROW, LIMIT]);
    let mut place = rng.point(middle);
    let mut points = vec![];
    for _ in 0..count {
        points.push(place);
        for number in &mut place {
            let low = (-reach - 1).max(-LIMIT - *number);
            let high = reach.min(LIMIT - *number);
            let any = rng.between(low, high);
            *number += rng.pick(&[low, high, any]);
        }
    }
    points
}
