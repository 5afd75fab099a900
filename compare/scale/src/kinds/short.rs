//! Random inputs of up to a few dozen points.

use super::each;
use crate::tally::Tally;
use lists::cleaning::case::Form;
use lists::cleaning::lent::{asked, in_turn, point_for};
use lists::cleaning::random::on_grid;
use lists::cleaning::rims;
use lists::contours::case::{self, Case};
use lists::contours::lent::around_a_need;
use lists::contours::{asked, damaged, located, random, unclean};
use lists::files;
use lists::files::damaged::{damaged_file, rows};
use lists::files::sound::{around, need, random_file, reading};
use lists::files::writings::beside;
use lists::point::{Point, LIMIT, NARROW, OFF_GRID, OFF_NARROW};
use lists::rng::Rng;
use lists::sets::case::Kind;
use lists::sets::chosen;
use lists::sets::flat::Set;
use lists::sets::packing::Form as Packing;
use lists::sets::random::{set, spoil};
use lists::sets::rows::Lengths;
use lists::{once, sets};
use requests::edition::Edition;

/// The forms of packing that the library has: it packs into shape sets.
pub const PACKINGS: [usize; 5] = [3, 4, 5, 6, 7];

/// All but the second call after a cleaning, which only Rattle has.
pub fn list_of_contours(tally: &mut Tally) {
    let mut list = lists::contours::list();
    list.retain(|case| !matches!(case.kind, case::Kind::Kept(_)));
    each(tally, list);
}

pub fn list_of_sets(tally: &mut Tally) {
    let mut list = once(sets::list());
    list.retain(|case| match &case.kind {
        Kind::Asked => true,
        Kind::Packing(call) => PACKINGS.contains(&call.form.number()),
    });
    each(tally, list);
}

pub fn any_contour(rng: &mut Rng) -> Vec<Point> {
    match rng.below(2) {
        0 => random::any(rng),
        _ => unclean::any(rng),
    }
}

pub fn contour(tally: &mut Tally, rng: &mut Rng) {
    let contour = any_contour(rng);
    tally.compare(&Case::contour(asked::about(&contour, rng), &contour));
}

/// At the ends of the grid, or amid the points of a contour of any form.
pub fn located(tally: &mut Tally, rng: &mut Rng) {
    let contour = any_contour(rng);
    let amid = located::amid(&contour, rng);
    each(
        tally,
        vec![located::at_an_end(rng), Case::located(amid, &contour)],
    );
}

/// On the rims of outlines and holes, at the ends of the grid and on a small one.
pub fn on_rims(tally: &mut Tally, rng: &mut Rng) {
    each(
        tally,
        vec![rims::at_an_end(rng), rims::on_three_by_three(rng)],
    );
}

/// Of an odd count, off the grid, or both.
pub fn damaged(tally: &mut Tally, rng: &mut Rng) {
    tally.compare(&damaged::damaged(rng));
}

/// By both cleaners.
pub fn cleaned(tally: &mut Tally, rng: &mut Rng) {
    each(tally, around_a_need(&any_contour(rng), rng));
}

/// On the grid with this end. One set in four is spoilt, some of those by one of the numbers.
fn any_set(end: i32, off: &[i32], rng: &mut Rng) -> Set {
    let sound = match rng.below(3) {
        0 => on_grid(1, rng),
        1 => on_grid(2, rng),
        _ => set(end, rng),
    };
    match rng.below(4) {
        0 => spoil(sound, off, rng),
        _ => sound,
    }
}

pub fn wide_set(rng: &mut Rng) -> Set {
    any_set(LIMIT, &OFF_GRID, rng)
}

/// The ranges, and every other question.
pub fn set_asked(tally: &mut Tally, rng: &mut Rng) {
    let set = wide_set(rng);
    each(tally, chosen::asked(std::slice::from_ref(&set)));
    tally.compare(&asked(point_for(&set, rng), &set));
}

/// In every form.
pub fn set_cleaned(tally: &mut Tally, rng: &mut Rng) {
    let set = wide_set(rng);
    for form in Form::ALL {
        tally.compare(&in_turn(form, &set, rng));
    }
}

/// In every form. What is added are the contours of another set.
pub fn packed(tally: &mut Tally, rng: &mut Rng) {
    let (set, other) = (wide_set(rng), wide_set(rng));
    for form in PACKINGS.into_iter().filter_map(Packing::numbered) {
        let (more, ranges) = (other.points.all(), &other.contours);
        let offsets = [(); 3].map(|()| rng.pick(&[-1, 0, 0, 0, 0, 1, 2, 5]));
        let need = chosen::need(form, &set, &more, ranges);
        let lent = need.beside(offsets, Lengths::LONGEST);
        tally.compare(&chosen::added(form, lent, &set, &more, ranges));
    }
}

pub fn file_read(tally: &mut Tally, rng: &mut Rng) {
    tally.compare(&read(random_file, damaged_file, rows, rng));
}

/// A sound file, read into rows around the need, or a damaged one, as often.
pub fn read(
    sound: fn(&mut Rng) -> Vec<u8>,
    damaged: fn(&mut Rng) -> Vec<u8>,
    rows: fn(usize, usize) -> Lengths,
    rng: &mut Rng,
) -> files::Case {
    match rng.below(2) {
        0 => {
            let file = sound(rng);
            reading(rng.pick(&around(need(&file))), &file)
        }
        _ => {
            let file = damaged(rng);
            reading(rows(rng.below(3), file.len()), &file)
        }
    }
}

/// One set in eight is from all over the grid.
pub fn file_written(tally: &mut Tally, rng: &mut Rng) {
    let set = match rng.below(8) {
        0 => wide_set(rng),
        _ => any_set(NARROW, &OFF_NARROW, rng),
    };
    tally.compare(&written(Edition::One, set, rng));
}

/// In a row around the need; of half the sets without the empty shapes.
pub fn written(edition: Edition, mut set: Set, rng: &mut Rng) -> files::Case {
    if rng.below(2) == 0 {
        set.shapes.retain(|[start, end]| start != end);
    }
    beside(edition, &set, rng.pick(&[-1, 0, 0, 1, 5]))
}
