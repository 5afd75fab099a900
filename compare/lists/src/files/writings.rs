//! Sets to be written, into rows as long as needed, longer and shorter.

use super::case::{Case, MOST_FILE};
use super::edition_2;
use crate::line::Row;
use crate::point::{LIMIT, NARROW, OFF_NARROW};
use crate::rng::Rng;
use crate::sets::chosen::wide;
use crate::sets::flat::Set;
use crate::sets::random;
use crate::sets::ranges::{contour_ranges, shape_ranges};
use crate::sets::small::{rows_up_to, set};
use requests::edition::Edition;
use requests::edition_1;

/// So many bytes more than needed, or less.
pub fn beside(edition: Edition, set: &Set, more: isize) -> Case {
    let need = match edition {
        Edition::One => edition_1::need(set.contours.len(), set.points.all().len() / 2),
        Edition::Two => edition_2::writings::need(set),
    };
    let room = need.saturating_add_signed(more).min(MOST_FILE);
    let set = set.clone();
    Case::Writing { edition, room, set }
}

/// Each set with exactly the room it needs, and every third also with less and with more.
pub fn in_turn(edition: Edition, sets: &[Set]) -> Vec<Case> {
    let beside = |set, more| beside(edition, set, more);
    let mut cases = vec![];
    for (turn, set) in sets.iter().enumerate() {
        cases.push(beside(set, 0));
        if turn % 3 == 0 {
            cases.extend([beside(set, -1), beside(set, 3)]);
        }
    }
    cases
}

/// All sets of up to two shapes, and of three of which some are empty.
pub fn small(edition: Edition) -> Vec<Case> {
    let two = rows_up_to(2, &rows_up_to(2, &[0, 1, 3]));
    let three = rows_up_to(3, &[vec![], vec![0], vec![2], vec![3, 0]]);
    let sizes = [two, three].concat();
    let sets: Vec<Set> = sizes.iter().map(|sizes| set(sizes)).collect();
    in_turn(edition, &sets)
}

/// Ranges of every kind, of contours and of shapes.
pub fn ranges() -> Vec<Case> {
    in_turn(Edition::One, &[contour_ranges(), shape_ranges()].concat())
}

/// A set of which one number, one of these off the edition's grid, stands in each place in turn: sound, with an empty
/// shape, unsound, and of an odd count.
pub fn off_in_one_place(edition: Edition, off: &[i32; 8]) -> Vec<Case> {
    let mut sets = vec![];
    let sound = set(&[vec![3, 0], vec![2], vec![1]]);
    for place in 0..sound.points.numbers.len() {
        for &off in off {
            let mut set = sound.clone();
            set.points.numbers[place] = off;
            sets.push(set);
        }
        let mut set = sets[sets.len() - 1 - place % off.len()].clone();
        let contours = set.contours.len();
        set.shapes.push([contours, contours]);
        sets.push(set.clone());
        set.contours[place % 3][1] += 1;
        sets.push(set.clone());
        set.points.numbers.push(1);
        sets.push(set);
    }
    in_turn(edition, &sets)
}

/// Sets that are on the grid and off the narrow one.
pub fn off_the_narrow_grid() -> Vec<Case> {
    in_turn(Edition::One, &wide())
}

/// Random sets, sound, with damages, and on the grid where it is wider than the narrow one.
pub fn random() -> Vec<Case> {
    let rng = &mut Rng::new(603);
    let sound: Vec<Set> = (0..100).map(|_| random::set(NARROW, rng)).collect();
    let damaged: Vec<Set> = (0..150)
        .map(|_| random::spoil(random::set(NARROW, rng), &OFF_NARROW, rng))
        .collect();
    let wide: Vec<Set> = (0..50).map(|_| random::set(LIMIT, rng)).collect();
    in_turn(Edition::One, &[sound, damaged, wide].concat())
}

/// Chosen sets with every choice of the row.
pub fn rows(edition: Edition) -> Vec<Case> {
    let mut cases = vec![];
    for set in chosen() {
        for more in [0, -1, -2, -8, 1, 2, 9, isize::MIN, isize::MAX] {
            cases.push(beside(edition, &set, more));
        }
    }
    cases
}

/// Small sets, one with points without ranges, and one with contours without shapes.
fn chosen() -> Vec<Set> {
    let mut sets = [
        &[][..],
        &[vec![]],
        &[vec![0]],
        &[vec![1]],
        &[vec![2, 0], vec![3]],
        &[vec![2, 0], vec![], vec![3]],
    ]
    .map(set)
    .to_vec();
    let loose = Set {
        points: Row::wound(&[5, 6], 1),
        ..Set::default()
    };
    let shapeless = Set {
        contours: vec![[0, 1]],
        ..loose.clone()
    };
    sets.extend([loose, shapeless]);
    sets
}
