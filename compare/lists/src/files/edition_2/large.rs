//! Files of edition 2 and sets around the limits: 65,536 points, 65,536 bytes, 4,095 contours, 32,767 points in one,
//! and 8,192 points that are listed.

use super::super::case::{Case, LONGEST};
use super::super::listing::MOST_LISTED;
use super::super::sound::{exact, need, reading};
use super::super::writings::beside;
use super::raw::{self, first_bits, headers, with_count, with_width, Contour, Place};
use crate::line::Row;
use crate::point::{Point, LIMIT, MOST_POINTS};
use crate::sets::flat::Set;
use crate::sets::rows::Lengths;
use requests::edition::{Edition, MOST_BYTES, MOST_CONTOURS, MOST_IN_ONE};
use requests::edition_2::write;

/// So many points that go down by one, by turns along x and along y: no two edges in line. In one bit each, 1001 over
/// and over.
fn stair(count: usize) -> Vec<Point> {
    let point = |k: i32| [9 - (k + 1) / 2, 5 - k / 2];
    (0..count as i32).map(point).collect()
}

/// So many points that go up by one along x, for which two bits are needed, in a straight line.
fn straight(count: usize) -> Vec<Point> {
    (0..count as i32).map(|x| [x, 3]).collect()
}

/// The two ends of the grid by turns.
fn wild(count: usize) -> Vec<Point> {
    let ends = [[LIMIT, LIMIT], [-LIMIT, -LIMIT]];
    ends.into_iter().cycle().take(count).collect()
}

/// Contours of one shape, of so many points each.
fn of(contour: fn(usize) -> Vec<Point>, counts: &[usize]) -> Vec<Vec<Point>> {
    counts.iter().map(|&count| contour(count)).collect()
}

fn same(count: usize) -> Vec<Point> {
    vec![[7, -8]; count]
}

/// The most points, of which no contour can have all.
const THREE: [usize; 3] = [MOST_IN_ONE, MOST_IN_ONE, 2];

/// Shapes that a file carries.
fn carried() -> Vec<Vec<Vec<Point>>> {
    let many = MOST_POINTS / MOST_CONTOURS;
    vec![
        of(same, &THREE),
        of(stair, &THREE),
        of(stair, &[2, MOST_IN_ONE, 0, MOST_IN_ONE]),
        of(straight, &[MOST_IN_ONE, 21_845, 10_924]),
        of(same, &[many; MOST_CONTOURS]),
        of(same, &[0; MOST_CONTOURS]),
        of(same, &[1; MOST_CONTOURS]),
        // 16 + 2 · (22 + 64) + 2 · 130 + 64 · 8185 bits: 65,536 bytes.
        vec![same(131), wild(8186)],
        of(wild, &[8180]),
    ]
}

/// Files of up to 8,192 points, which are listed, and of one more.
fn listed() -> Vec<Vec<Vec<Point>>> {
    let most = MOST_LISTED;
    let mut shapes = vec![];
    for contour in [stair, straight, same] {
        shapes.push(of(contour, &[most]));
        shapes.push(of(contour, &[most + 1]));
        shapes.push(of(contour, &[3, most - 3, 0]));
        shapes.push(of(contour, &[most, 1]));
    }
    shapes
}

pub fn readings() -> Vec<Case> {
    let file = |shape: &Vec<Vec<Point>>| write(std::slice::from_ref(shape));
    let mut cases: Vec<Case> = listed().iter().map(|shape| exact(&file(shape))).collect();
    for file in carried().iter().map(file) {
        for offsets in [[0, 0, 0], [-1, 0, 0], [0, -1, 0], [1, 2, 0]] {
            cases.push(reading(need(&file).beside(offsets, LONGEST), &file));
        }
        cases.push(refused(&file[..file.len() - 1]));
        cases.push(refused(&[&file[..], &[0]].concat()));
        cases.push(refused(&with_width(&file, 16, 3)));
    }
    cases.extend(promised());
    cases.extend(off_the_grid());
    cases.extend([MOST_BYTES, MOST_BYTES + 1].map(|bytes| refused(&vec![0x2f; bytes])));
    cases
}

/// Into rows that are not long enough for anything.
fn refused(file: &[u8]) -> Case {
    let lent = Lengths {
        out: 3,
        records: 2,
        groups: 1,
    };
    reading(lent, file)
}

/// Contours that promise up to 65,536 points and more in all, with their bits there, cut off, and in widths that are
/// none.
fn promised() -> Vec<Case> {
    let mut cases = vec![];
    for last in [1, 2, 3, MOST_IN_ONE] {
        let counts = [MOST_IN_ONE, MOST_IN_ONE, last];
        let contours = counts.map(|count| Contour::of_points(true, &same(count)));
        let file = raw::file_of(&contours);
        let header = headers(&contours)[2];
        for bits in [header, header + 21, header + 22, header + 22 + 64] {
            cases.push(refused(&first_bits(&file, bits)));
        }
        for width in [0, 2, 33, 63] {
            cases.push(refused(&with_width(&file, header, width)));
        }
        let cut = first_bits(&file, header + 22);
        cases.push(refused(&with_width(&cut, header, 0)));
        cases.push(refused(&with_count(&file, headers(&contours)[1], 2)));
        cases.push(refused(&file));
    }
    cases
}

/// The most points of a contour, each one below the one before: the last at the end of the grid, one past it, or back
/// at the end from one past it.
fn off_the_grid() -> Vec<Case> {
    let count = MOST_IN_ONE as i64;
    let end = -i64::from(LIMIT);
    let down = |count: i64, last: i64| -> Vec<Place> {
        (1..=count).map(|k| [last + count - k, 5]).collect()
    };
    let back = [down(count - 1, end - 1), vec![[end, 5]]].concat();
    let rows = [down(count, end), down(count, end - 1), back];
    let [on, past, back] = rows.map(|places| raw::one(&Contour::new(true, &places)));
    vec![exact(&on), refused(&on), refused(&past), refused(&back)]
}

/// A set of these points over and over, in contours that end at these.
fn wound(points: &[Point], times: usize, ends: &[usize], shapes: &[[usize; 2]]) -> Set {
    let starts = [&[0], ends].concat();
    let ranges = starts.into_iter().zip(ends);
    Set {
        contours: ranges.map(|(start, &end)| [start, end]).collect(),
        shapes: shapes.to_vec(),
        points: Row::wound(&points.concat(), times),
    }
}

/// So many contours in one shape, the first with all of so many points, which go from end to end of the grid by turns.
fn wild_first(points: usize, contours: usize) -> Set {
    let ends = vec![points; contours];
    wound(&wild(2), points / 2, &ends, &[[0, contours]])
}

/// Sets of the most points and contours, and those whose file has 65,536 bytes: 16 + 22 · 40 + 64 · 8178 bits.
fn sets_carried() -> Vec<Set> {
    let [a, b, c] = [MOST_IN_ONE, 2 * MOST_IN_ONE, MOST_POINTS];
    let each = Vec::from_iter(1..=MOST_CONTOURS);
    let apart = Vec::from_iter((0..MOST_CONTOURS).map(|k| [k, k + 1]));
    vec![
        wound(&same(1), MOST_POINTS, &[a, b, c], &[[0, 3]]),
        wound(&same(1), MOST_POINTS, &[a, a, b, c], &[[0, 1], [1, 4]]),
        wound(&same(1), MOST_CONTOURS, &each, &[[0, MOST_CONTOURS]]),
        wound(&[], 1, &[0; MOST_CONTOURS], &apart),
        wound(
            &[[7, 8], [8, 8]],
            MOST_IN_ONE / 2,
            &[MOST_IN_ONE - 1],
            &[[0, 1]],
        ),
        Set::of(&[vec![stair(2000)], vec![straight(1000)]]),
        wild_first(8178, 40),
        wild_first(8180, 1),
    ]
}

/// Sets that are too large for a file.
fn sets_not_carried() -> Vec<Set> {
    let [a, b, c] = [MOST_IN_ONE, 2 * MOST_IN_ONE, MOST_POINTS];
    let point = [[LIMIT, -LIMIT]];
    vec![
        wild_first(8178, 41),
        wild_first(8192, 1),
        Set {
            shapes: vec![[0, 1], [1, 1]],
            ..wild_first(8192, 1)
        },
        wound(&point, c, &[c], &[[0, 1]]),
        wound(&point, c + 1, &[c + 1], &[[0, 1]]),
        wound(&point, c, &[c - 1], &[[0, 1]]),
        wound(&point, a + 1, &[a + 1], &[[0, 1]]),
        wound(&point, c, &[a, a + 1, c], &[[0, 3]]),
        wound(&point, c, &[a, b, c], &[[0, 2], [2, 3], [3, 3]]),
        wound(&[[LIMIT + 1, 0]], c, &[c], &[[0, 1]]),
        wound(
            &point,
            1,
            &[1; MOST_CONTOURS + 1],
            &[[0, MOST_CONTOURS + 1]],
        ),
        wound(&[], 1, &[0; 32_767], &[[0, 32_767]]),
    ]
}

pub fn writings() -> Vec<Case> {
    let beside = |set: &Set, more| beside(Edition::Two, set, more);
    let mut cases = vec![];
    for set in sets_carried() {
        cases.extend([0, -1, 5].map(|more| beside(&set, more)));
    }
    for set in sets_not_carried() {
        cases.extend([0, isize::MIN].map(|more| beside(&set, more)));
    }
    cases
}
