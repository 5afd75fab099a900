//! Points inside contours, on their boundaries and outside.

use crate::contours::asked;
use crate::contours::case::{Case, Kind};
use crate::contours::known::{lines, thin_edge};
use crate::contours::tiny::{contours, everywhere, in_turn, ring, square};
use crate::contours::{damaged as spoilt, random as any, unclean};
use crate::point::{minus, onto_grid, plus, steps, times, Point, LIMIT, NARROW};
use crate::rng::Rng;
use crate::shapes::{at_ends, there_and_back};

/// The same contour and point, located.
fn located(case: Case) -> Case {
    match case.kind {
        Kind::Contour { asked } => Case {
            kind: Kind::Located { asked },
            ..case
        },
        _ => case,
    }
}

/// W9's square, the closing edge, single points, edges of no length and edges there and back, a bow where
/// it crosses itself, and what has no boundary.
pub fn known() -> Vec<Case> {
    lines(&[
        "l 0 2 0 0 4 0 4 4 0 4",
        "l 2 0 0 0 4 0 4 4 0 4",
        "l 4 2 0 0 4 0 4 4 0 4",
        "l 2 4 0 0 4 0 4 4 0 4",
        "l 2 2 0 0 4 0 4 4 0 4",
        "l 4 4 0 0 4 0 4 4 0 4",
        "l 5 4 0 0 4 0 4 4 0 4",
        "l -1 0 0 0 4 0 4 4 0 4",
        "l 2 2 4 0 0 0 0 4",
        "l 2 2 0 0 4 4 4 0 0 4",
        "l 3 2 0 0 4 4 4 0 0 4",
        "l 2 3 0 0 4 4 4 0 0 4",
        "l 7 8 7 8",
        "l 7 8 7 8 7 8",
        "l 7 9 7 8 7 8",
        "l 1 1 0 0 2 2",
        "l 2 2 0 0 2 2",
        "l 3 3 0 0 2 2",
        "l -1 -1 0 0 2 2",
        "l 1 0 0 0 2 2",
        "l 4 6 0 0 4 0 4 4 4 8 4 4 0 4",
        "l 4 9 0 0 4 0 4 4 4 8 4 4 0 4",
        "l 2 0 0 0 4 0 4 4 0 4 0 0 4 0 4 4 0 4",
        "l 2 2 0 0 4 0 4 4 0 4 0 0 4 0 4 4 0 4",
        "l 0 0",
    ])
}

/// An edge across each whole grid that (0, -1) misses by the least cross product, its two sides, and the diagonal.
pub fn across() -> Vec<Case> {
    [LIMIT, NARROW].map(across_to).concat()
}

fn across_to(end: i32) -> Vec<Case> {
    let (a, b) = thin_edge(end);
    let diagonal = [[-end, -end], [end, end]];
    vec![
        Case::located([0, -1], &[a, [0, -1], b]),
        Case::located([0, -1], &[a, b, [a[0], b[1]]]),
        Case::located([0, -1], &[b, a, [b[0], a[1]]]),
        Case::located([5, 5], &diagonal),
        Case::located([5, 6], &diagonal),
    ]
}

/// On the grid 0, 1, 2 all contours of up to two points, each asked about every point of the grid and one around it,
/// and all of three points, each asked about one; on the corners of a square of side 4 all of four and of five points,
/// each asked about one in it.
pub fn tiny() -> Vec<Case> {
    let (grid, corners) = (square(0, 2, 1), square(0, 4, 4));
    let short: Vec<_> = (0..=2).flat_map(|n| contours(&grid, n)).collect();
    let longer = [contours(&corners, 4), contours(&corners, 5)].concat();
    let cases = [
        everywhere(&short, &grid),
        in_turn(&short, &ring(3)),
        in_turn(&contours(&grid, 3), &square(-1, 3, 1)),
        in_turn(&longer, &square(0, 4, 1)),
    ];
    cases.concat().into_iter().map(located).collect()
}

/// Contours with level edges, corners at one height and crossings, each asked about every point of its box and of the
/// frame around it, but for the widest.
pub fn scans() -> Vec<Case> {
    let mut cases = asked::scans();
    cases.retain(|case| case.of.numbers.iter().all(|&number| number >= 0));
    cases.into_iter().map(located).collect()
}

/// Half of them are asked about a point amid three of theirs.
pub fn random() -> Vec<Case> {
    let rng = &mut Rng::new(411);
    let mut cases = vec![];
    for kind in [any::any, unclean::any] {
        for _ in 0..160 {
            let contour = kind(rng);
            cases.push(Case::located(asked::about(&contour, rng), &contour));
            cases.push(Case::located(amid(&contour, rng), &contour));
        }
    }
    cases
}

pub fn amid(contour: &[Point], rng: &mut Rng) -> Point {
    if contour.is_empty() {
        return rng.point(1);
    }
    let three = [(); 3].map(|()| rng.pick(contour));
    [0, 1].map(|axis| three.iter().map(|point| point[axis] / 3).sum())
}

pub fn at_the_ends() -> Vec<Case> {
    let rng = &mut Rng::new(412);
    (0..300).map(|_| at_an_end(rng)).collect()
}

/// A contour of up to seven points at the ends of the grid, a third of them there and back, asked about a point of an
/// edge, one step beside it, or any other that has something to tell.
pub fn at_an_end(rng: &mut Rng) -> Case {
    let contour = at_ends(rng.between(1, 7) as usize, LIMIT, rng);
    let contour = match rng.below(3) {
        0 => there_and_back(&contour),
        _ => contour,
    };
    let asked = match rng.below(4) {
        0 => asked::about(&contour, rng),
        1 => beside(on_an_edge(&contour, rng), rng),
        _ => on_an_edge(&contour, rng),
    };
    Case::located(asked, &contour)
}

/// A grid point of an edge, the ends and their neighbours most of all.
fn on_an_edge(contour: &[Point], rng: &mut Rng) -> Point {
    let place = rng.below(contour.len());
    let (a, b) = (contour[place], contour[(place + 1) % contour.len()]);
    let (step, count) = steps(a, b);
    match rng.below(3) {
        0 => plus(a, step),
        1 => minus(b, step),
        _ => plus(a, times(rng.between(0, count), step)),
    }
}

fn beside(point: Point, rng: &mut Rng) -> Point {
    onto_grid(plus(point, rng.point(1)))
}

/// An odd count, a number off the grid, the asked point off it, or more than one of these.
pub fn damaged() -> Vec<Case> {
    let rng = &mut Rng::new(413);
    let damaged = (0..80).map(|_| located(spoilt::damaged(rng)));
    let chosen = lines(&[
        "l 1073741824 0 1073741824",
        "l 0 -1073741824 1 2 3 *43691",
        "l 1073741824 0 1073741824 0 *65537",
        "l 0 0 1073741824 0 *65536",
        "l 1073741824 -1073741824",
        "l 2147483647 -2147483648 7 8",
    ]);
    damaged.chain(chosen).collect()
}

/// The most points, one less and one more: asked about the first edge, the closing edge, the inside and the outside.
pub fn long() -> Vec<Case> {
    let mut cases = lines(&[
        "l 7 7 7 7 *65535",
        "l 7 7 7 7 *65536",
        "l 7 8 7 7 *65536",
        "l 7 7 7 7 *65537",
        "l 5 5 5 *131073",
        "l 1 1 0 0 4 0 0 4 *21845",
        "l 2 2 0 0 4 0 0 4 *21845",
        "l 2 1 0 0 4 0 4 4 0 4 *16384",
        "l 0 1 0 0 4 0 4 4 0 4 *16384",
        "l 4 1 0 0 4 0 4 4 0 4 *16383",
        "l 2 0 0 0 4 0 *32768",
    ]);
    let stairs: Vec<Point> = (0..400).map(|i| [(i + 1) / 2 * 2, i / 2 * 2]).collect();
    for asked in [[1, 0], [2, 1], [200, 199], [200, 200], [3, 2], [9, 2]] {
        cases.push(Case::located(asked, &stairs));
    }
    cases
}

#[cfg(test)]
mod tests {
    use super::{across, at_the_ends, known, random, scans, tiny};
    use crate::contours::answers::contains;
    use crate::contours::case::Kind;
    use requests::locate::{locate, Place};

    #[test]
    fn off_the_boundary_the_place_is_the_originals_answer() {
        let mut met = [0; 3];
        let whole_grids = [across(), at_the_ends()].concat();
        for case in [known(), tiny(), scans(), random(), whole_grids].concat() {
            let Kind::Located { asked } = case.kind else {
                panic!("{case}")
            };
            let row = case.of.all();
            let place = locate(&row, asked).unwrap();
            met[place as usize] += 1;
            if place != Place::Boundary {
                let inside = Ok(place == Place::Inside);
                assert_eq!(contains(asked, &row), inside, "{case}");
            }
        }
        assert!(met.iter().all(|&count| count > 250), "{met:?}");
    }
}
