//! Sets to be written as files of edition 2.

use super::super::case::Case;
use super::super::writings::{beside, in_turn};
use super::sound::strolled;
use crate::point::{Point, LIMIT, OFF_GRID};
use crate::rng::Rng;
use crate::sets::chosen::wide;
use crate::sets::flat::Set;
use crate::sets::random;
use crate::sets::ranges::{contour_ranges, shape_ranges};
use requests::edition::Edition;
use requests::edition_2::{self, written, WIDEST};
use requests::reply::ROOM;

/// How long the file of a set is; of one that no file carries, as long as one of its counts in the widest steps.
pub fn need(set: &Set) -> usize {
    let points = set.points.all();
    if written(&points, &set.contours, &set.shapes, 0) != Err(ROOM) {
        return 2 + 3 * set.contours.len() + 4 * points.len();
    }
    let point = |pair: &[i32]| -> Point { [pair[0], pair[1]] };
    let points: Vec<Point> = points.chunks(2).map(point).collect();
    let contour = |&[start, end]: &[usize; 2]| points[start..end].to_vec();
    edition_2::need(&[set.contours.iter().map(contour).collect()])
}

/// Every other range of every kind, of contours and of shapes.
pub fn ranges() -> Vec<Case> {
    let sets = [contour_ranges(), shape_ranges()].concat();
    let case = |set| beside(Edition::Two, set, 0);
    sets.iter().step_by(2).map(case).collect()
}

/// Steps at both ends of every width, and beside them, along x and along y.
pub fn differences() -> Vec<Case> {
    let mut sets = vec![];
    for width in 1..=WIDEST {
        let end = 1i64 << (width - 1);
        for step in [-end - 1, -end, -end + 1, end - 2, end - 1, end] {
            let step = step.clamp(-2 * i64::from(LIMIT), 2 * i64::from(LIMIT));
            let start = -step / 2;
            let [from, to] = [start as i32, (start + step) as i32];
            sets.push(Set::of(&[vec![
                vec![[from, 1], [to, 1]],
                vec![[5, 5], [5, 4]],
            ]]));
            if width % 4 == 1 {
                sets.push(Set::of(&[vec![vec![
                    [-2, from],
                    [-2, from],
                    [-2, to],
                    [-3, to],
                ]]]));
            }
        }
    }
    in_turn(Edition::Two, &sets)
}

/// Random sets, sound, with damages, and of contours that go in steps of a width of their own.
pub fn random() -> Vec<Case> {
    let rng = &mut Rng::new(607);
    let sound: Vec<Set> = (0..80).map(|_| random::set(LIMIT, rng)).collect();
    let damaged: Vec<Set> = (0..120)
        .map(|_| random::spoil(random::set(LIMIT, rng), &OFF_GRID, rng))
        .collect();
    let stepped = (0..60).map(|_| stepped(rng)).collect();
    in_turn(Edition::Two, &[sound, damaged, stepped, wide()].concat())
}

/// One or two shapes of up to three contours of up to nine points.
pub fn stepped(rng: &mut Rng) -> Set {
    let mut shapes = vec![];
    for _ in 0..rng.between(1, 2) {
        let contours = rng.between(1, 3);
        shapes.push((0..contours).map(|_| strolled(9, rng)).collect());
    }
    Set::of(&shapes)
}
