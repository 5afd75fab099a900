//! Every small set.

use super::case::Case;
use super::chosen::{asked, packed_in_turn};
use super::flat::Set;
use crate::point::Point;

/// All sets of up to two shapes of up to two contours of no point, one or three.
pub fn shapes() -> Vec<Case> {
    let shapes = rows_up_to(2, &[0, 1, 3]);
    let sets: Vec<Set> = rows_up_to(2, &shapes)
        .iter()
        .map(|sizes| set(sizes))
        .collect();
    [asked(&sets), packed_in_turn(&sets, 3)].concat()
}

/// All sets of three shapes, each empty, an empty contour, a triangle, or that with a
/// hole that is flat: empty shapes come in front, between and at the end.
pub fn empty_shapes() -> Vec<Case> {
    let shapes = [vec![], vec![0], vec![3], vec![3, 2]];
    let three = rows_up_to(3, &shapes)
        .into_iter()
        .filter(|all| all.len() == 3);
    let sets: Vec<Set> = three.map(|sizes| set(&sizes)).collect();
    [asked(&sets), packed_in_turn(&sets, 2)].concat()
}

/// All rows of up to `most` of the entries.
pub fn rows_up_to<T: Clone>(most: usize, entries: &[T]) -> Vec<Vec<T>> {
    if most == 0 {
        return vec![vec![]];
    }
    let mut rows = vec![vec![]];
    for shorter in rows_up_to(most - 1, entries) {
        for entry in entries {
            rows.push([&shorter[..], std::slice::from_ref(entry)].concat());
        }
    }
    rows
}

/// The set whose contours have so many points, no two of them the same.
pub fn set(sizes: &[Vec<usize>]) -> Set {
    let mut next = 0;
    let mut point = || {
        next += 1;
        [next, next * next % 7]
    };
    let mut contour = |&size: &usize| (0..size).map(|_| point()).collect::<Vec<Point>>();
    let mut shape = |sizes: &Vec<usize>| sizes.iter().map(&mut contour).collect::<Vec<_>>();
    Set::of(&sizes.iter().map(&mut shape).collect::<Vec<_>>())
}
