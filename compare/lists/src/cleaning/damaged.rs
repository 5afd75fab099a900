//! Sets to be refused: unsound ranges, odd counts, numbers off the grid, too many points.

use super::case::{Case, Form};
use super::lent;
use crate::ends::{self, NEAR, PAST};
use crate::line::{Row, MOST_NUMBERS};
use crate::point::{Point, LIMIT, MOST_POINTS, OFF_GRID};
use crate::rng::Rng;
use crate::sets::chosen::{off_grid, one_contour, wide};
use crate::sets::flat::{Record, Set};
use crate::sets::random::{set, spoil};
use crate::sets::ranges;

/// A set of which the first outline collapses, in front of a hole and of a shape that
/// stays.
fn sound() -> Set {
    const LINE: &[Point] = &[[0, 0], [1, 0], [2, 0]];
    const SQUARE: &[Point] = &[[0, 0], [2, 0], [4, 0], [4, 4], [0, 4]];
    Set::of(&[
        vec![LINE.to_vec(), SQUARE.to_vec()],
        vec![SQUARE.to_vec()],
        vec![],
    ])
}

/// Ranges of every kind, sound and not: all of up to two records over two points and over
/// two contours, and of three contours of a set, with a gap, an overlap, one that runs
/// backward, too short, too long, turned round, or none.
pub fn ranges() -> Vec<Case> {
    const CONTOURS: [&[Record]; 10] = [
        &[[0, 3], [4, 8], [8, 13]],
        &[[0, 3], [2, 8], [8, 13]],
        &[[0, 3], [3, 2], [2, 13]],
        &[[0, 3], [3, 8], [8, 12]],
        &[[0, 3], [3, 8], [8, 14]],
        &[[1, 3], [3, 8], [8, 13]],
        &[[3, 8], [0, 3], [8, 13]],
        &[[0, 14], [14, 8], [8, 13]],
        &[[0, 3], [3, 8]],
        &[],
    ];
    const SHAPES: [&[Record]; 10] = [
        &[[0, 1], [2, 3], [3, 3]],
        &[[0, 2], [1, 3], [3, 3]],
        &[[0, 2], [2, 1], [1, 3]],
        &[[0, 2], [2, 2]],
        &[[0, 2], [2, 4]],
        &[[1, 2], [2, 3]],
        &[[2, 3], [0, 2], [3, 3]],
        &[[0, 4], [4, 2], [2, 3]],
        &[[0, 2]],
        &[],
    ];
    let mut sets = vec![sound()];
    for (contours, shapes) in CONTOURS.into_iter().zip(SHAPES) {
        let (contours, shapes) = (contours.to_vec(), shapes.to_vec());
        sets.push(Set {
            contours: contours.clone(),
            ..sound()
        });
        sets.push(Set {
            shapes: shapes.clone(),
            ..sound()
        });
        sets.push(Set {
            contours,
            shapes,
            ..sound()
        });
    }
    [
        lent::asked_and_cleaned(&sets, 621),
        lent::asked_and_cleaned_once(&ranges::contour_ranges(), &Form::ALL, 622),
        lent::asked_and_cleaned_once(&ranges::shape_ranges(), &Form::ALL[2..], 623),
    ]
    .concat()
}

/// A number off the grid in every place: in a hole behind an outline that would collapse,
/// as well.
pub fn off_in_one_place() -> Vec<Case> {
    lent::asked_and_cleaned(&off_grid(&sound()), 624)
}

/// Sets of one contour with a number past an end of the grid, in each place in turn, and sets that are on the grid and off
/// the narrow one.
pub fn at_the_ends() -> Vec<Case> {
    let past = one_contour(&ends::rows(&PAST, &NEAR, &[1, 2, 3, 4, 5, 6, 7, 8, 9]));
    [
        lent::asked_and_cleaned_once(&past, &Form::ALL, 628),
        lent::asked_and_cleaned(&wide(), 629),
    ]
    .concat()
}

/// Sets with one to three damages.
pub fn spoilt() -> Vec<Case> {
    let rng = &mut Rng::new(625);
    let sets: Vec<Set> = (0..160)
        .map(|_| spoil(set(LIMIT, rng), &OFF_GRID, rng))
        .collect();
    lent::asked_and_cleaned(&sets, 626)
}

/// The most points, one less and one more, in one contour and in three, on the grid and
/// off it; and an odd count of numbers as large.
pub fn many_points() -> Vec<Case> {
    let mut sets = vec![];
    for numbers in [
        &[0, 0, 3, 0, 3, 3, 0, 3][..],
        &[7, 8],
        &[LIMIT + 1, 8],
        &[5],
    ] {
        for count in [MOST_POINTS - 4, MOST_POINTS, MOST_POINTS + 1] {
            let times = 2 * count / numbers.len() + numbers.len() % 2;
            let points = Row::wound(numbers, times.min(MOST_NUMBERS / numbers.len()));
            for contours in [vec![[0, count]], vec![[0, 2], [2, 5], [5, count]]] {
                let shapes = vec![[0, contours.len()]];
                let points = points.clone();
                sets.push(Set {
                    contours,
                    shapes,
                    points,
                });
            }
        }
    }
    lent::asked_and_cleaned(&sets, 627)
}
