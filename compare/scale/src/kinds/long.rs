//! Random inputs of up to 65,537 points.

use super::short::{any_contour, PACKINGS};
use crate::tally::Tally;
use lists::cleaning::case::{self, Form};
use lists::cleaning::lent::{asked, point_for};
use lists::contours::asked;
use lists::contours::case::{Case, Kind};
use lists::contours::unclean::{returning, stroll};
use lists::files::writings::beside;
use lists::point::{Point, LIMIT, MOST_POINTS, NARROW, OFF_GRID};
use lists::rng::Rng;
use lists::sets::flat::Set;
use lists::sets::packing::Form as Packing;
use lists::sets::{chosen, rows};
use lists::shapes::{
    at_ends, convex, flat, scattered, star, there_and_back, turned, with_repeats, with_spike,
};
use lists::{cleaning, scratch};
use requests::edition::Edition;

/// A count of points: around a power of two, around the most, or any.
pub fn length(rng: &mut Rng) -> usize {
    let power = 1 << rng.between(1, 16);
    match rng.below(3) {
        0 => power - 1 + rng.below(3),
        1 => MOST_POINTS - 2 + rng.below(4),
        _ => rng.below(power),
    }
}

/// A contour of any form, of so many points, most of them on the grid with this end.
fn of_length(count: usize, end: i32, rng: &mut Rng) -> Vec<Point> {
    if count < 6 {
        return scattered(count, 1, rng);
    }
    let stride = end / 2 / count as i32;
    let contour = match rng.below(11) {
        0 => scattered(count, 1, rng),
        1 => scattered(count, end, rng),
        2 => at_ends(count, end, rng),
        3 => flat(count, rng),
        4 => turned(star(count, end, rng), rng),
        5 => turned(convex(count, stride, rng), rng),
        6 => with_spike(&convex(count - 1, stride, rng), rng),
        7 => with_repeats(&stroll(count, rng), rng),
        8 => there_and_back(&stroll(count / 2 + 1, rng)),
        9 => returning(count),
        _ => [any_contour(rng), vec![[0, 0]]].concat(),
    };
    contour.into_iter().cycle().take(count).collect()
}

/// One in four is of an odd count or has a number off the grid.
pub fn contour(tally: &mut Tally, rng: &mut Rng) {
    let count = length(rng);
    let contour = of_length(count, LIMIT, rng);
    let asked = asked::about(&contour, rng);
    let mut numbers = contour.concat();
    match rng.below(16) {
        0 => numbers.push(0),
        1..=3 if count > 0 => {
            let place = rng.below(2 * count);
            numbers[place] = rng.pick(&OFF_GRID);
        }
        _ => {}
    }
    tally.compare(&Case::new(Kind::Contour { asked }, &numbers));
}

/// Up to four shapes of up to four contours, and so many points in all.
pub fn set_of(count: usize, end: i32, rng: &mut Rng) -> Set {
    let mut shapes = vec![];
    let mut left = count;
    for _ in 0..rng.between(1, 4) {
        let mut shape = vec![];
        for _ in 0..rng.below(5) {
            let part = rng.below(left + 1);
            shape.push(of_length(part, end, rng));
            left -= part;
        }
        shapes.push(shape);
    }
    shapes.push(vec![of_length(left, end, rng)]);
    Set::of(&shapes)
}

/// Every question, cleaning and packing, and the writing, with rows long enough.
pub fn set(tally: &mut Tally, rng: &mut Rng) {
    let count = length(rng);
    let set = set_of(count, LIMIT, rng);
    tally.compare(&asked(point_for(&set, rng), &set));
    let lent = case::Lengths {
        scratch: scratch::Lengths::all(count + 3),
        rows: rows::Lengths {
            out: 2 * count + 5,
            records: set.contours.len() + 2,
            groups: set.shapes.len() + 2,
        },
    };
    for form in Form::ALL {
        let kind = case::Kind::Cleaning { form, lent };
        let of = set.clone();
        tally.compare(&cleaning::Case { kind, of });
    }
    for form in PACKINGS.into_iter().filter_map(Packing::numbered) {
        tally.compare(&chosen::added(form, lent.rows, &set, &[], &[]));
    }
    tally.compare(&beside(Edition::One, &set, 1));
    let narrow = set_of(count, NARROW, rng);
    tally.compare(&beside(Edition::One, &narrow, 1));
}
