//! Random contours and sets, with a step that keeps them and the asked point on the grid.

use super::short::any_contour;
use crate::moved::{Contour, Set};
use crate::tally::Tally;
use lists::cleaning::case::Form;
use lists::cleaning::lent::{asked, in_turn};
use lists::cleaning::random::on_grid;
use lists::contours::asked;
use lists::point::{Point, LIMIT};
use lists::rng::Rng;
use lists::sets::random;

/// A step that takes these points to either end of the grid, next to where they are, or anywhere.
fn step(points: &[Point], rng: &mut Rng) -> Point {
    [0, 1].map(|axis| {
        let numbers = || points.iter().map(|point| point[axis]);
        let low = -LIMIT - numbers().min().unwrap_or_default();
        let high = LIMIT - numbers().max().unwrap_or_default();
        match rng.below(4) {
            0 => low,
            1 => high,
            2 => rng.between(low.max(-9), high.min(9)),
            _ => rng.between(low, high),
        }
    })
}

pub fn contour(tally: &mut Tally, rng: &mut Rng) {
    let points = any_contour(rng);
    let asked = asked::about(&points, rng);
    let step = step(&[&points[..], &[asked]].concat(), rng);
    tally.compare(&Contour {
        asked,
        start: rng.below(points.len().max(1)),
        points,
        step,
    });
}

/// Asked about a point, and cleaned in every form.
pub fn set(tally: &mut Tally, rng: &mut Rng) {
    let set = match rng.below(3) {
        0 => on_grid(1, rng),
        1 => on_grid(2, rng),
        _ => random::set(LIMIT, rng),
    };
    let mut points: Vec<Point> = set
        .points
        .numbers
        .chunks_exact(2)
        .map(|point| [point[0], point[1]])
        .collect();
    let point = asked::about(&points, rng);
    points.push(point);
    let step = step(&points, rng);
    let mut cases = vec![asked(point, &set)];
    cases.extend(Form::ALL.map(|form| in_turn(form, &set, rng)));
    for case in cases {
        tally.compare(&Set { case, step });
    }
}
