//! Contours of many points.

use crate::contours::asked;
use crate::contours::case::Case;
use crate::point::{Point, LIMIT, MOST_POINTS};
use crate::rng::Rng;
use crate::shapes::{
    at_ends, convex, scattered, star, turned, with_dent, with_repeats, with_spike,
    with_straight_runs,
};

/// Short contours repeated, up to the largest count; the areas of the huge ones wrap.
pub fn wound() -> Vec<Case> {
    let rng = &mut Rng::new(201);
    let mut cases = vec![];
    for _ in 0..40 {
        let n = 1 + rng.below(12);
        for contour in [
            scattered(n, 3, rng),
            scattered(n, LIMIT, rng),
            at_ends(n, LIMIT, rng),
            turned(convex(n + 2, LIMIT / 32, rng), rng),
        ] {
            let most = MOST_POINTS / contour.len();
            let laps = rng.pick(&[2, 3, 4, 5, 8, 16, 100, most - 1, most]);
            cases.push(Case::contour(asked::about(&contour, rng), &contour).wound(laps));
        }
    }
    cases
}

/// Contours of about a hundred points of every form, and a few of thousands.
pub fn written_out() -> Vec<Case> {
    let rng = &mut Rng::new(202);
    let mut contours = vec![];
    for _ in 0..5 {
        contours.extend(hundred(rng));
    }
    contours.extend(thousands(rng));
    let case = |contour: &Vec<Point>| Case::contour(asked::about(contour, rng), contour);
    contours.iter().map(case).collect()
}

fn hundred(rng: &mut Rng) -> Vec<Vec<Point>> {
    let round = turned(convex(100, 100, rng), rng);
    vec![
        scattered(100, 9, rng),
        scattered(100, LIMIT, rng),
        turned(star(100, 999, rng), rng),
        with_repeats(&round, rng),
        with_straight_runs(&round, rng),
        with_spike(&round, rng),
        with_dent(round, rng),
    ]
}

/// Among them two convex polygons, one spoilt by its last corner alone.
fn thousands(rng: &mut Rng) -> Vec<Vec<Point>> {
    let round = convex(2000, 50, rng);
    let mut last_turns_back = round.clone();
    last_turns_back.push(round[round.len() - 2]);
    vec![
        round,
        last_turns_back,
        scattered(2000, 999, rng),
        scattered(2500, LIMIT, rng),
        turned(star(5000, 9999, rng), rng),
        stairs(4000),
    ]
}

/// Steps to the right and up, and back along the top.
fn stairs(n: i32) -> Vec<Point> {
    let mut points: Vec<Point> = (0..n - 1).map(|i| [(i + 1) / 2, i / 2]).collect();
    points.push([0, n / 2 - 1]);
    points
}
