//! Files and sets around the limits: 65,536 bytes, 4,095 contours, 8,191 points.

use super::case::{Case, LONGEST, MOST_RECORDS};
use super::sound::{around, exact, file, file_of, need, reading};
use super::writings::beside;
use crate::line::Row;
use crate::point::{Point, MOST_POINTS, NARROW};
use crate::sets::flat::{Record, Set};
use requests::edition::{Edition, MOST_BYTES, MOST_CONTOURS};

/// The most points of a file.
pub const MOST_IN_A_FILE: usize = 8191;

const POINT: Point = [NARROW, -NARROW];

/// So many points, in contours that end at these, in one shape.
fn set(points: usize, ends: &[usize]) -> Set {
    let starts = [&[0], ends].concat();
    let ranges = starts.into_iter().zip(ends);
    Set {
        contours: ranges.map(|(start, &end)| [start, end]).collect(),
        shapes: vec![[0, ends.len()]],
        points: match points {
            0 => Row::wound(&[], 1),
            _ => Row::wound(&POINT, points),
        },
    }
}

/// So many contours, of which the first has all the points.
fn first_filled(points: usize, contours: usize) -> Set {
    set(points, &vec![points; contours])
}

/// So many contours, of which the last has all the points.
fn last_filled(points: usize, contours: usize) -> Set {
    set(points, &[vec![0; contours - 1], vec![points]].concat())
}

/// The set with each contour in a shape of its own.
fn apart(set: Set) -> Set {
    let shapes: Vec<Record> = (0..set.contours.len()).map(|k| [k, k + 1]).collect();
    Set { shapes, ..set }
}

/// Sets of the most contours and of the most points; some make a file of 65,536 bytes.
fn carried() -> Vec<Set> {
    let each = Vec::from_iter(1..=MOST_CONTOURS);
    vec![
        set(0, &[0; MOST_CONTOURS]),
        apart(set(0, &[0; MOST_CONTOURS])),
        set(MOST_CONTOURS, &each),
        first_filled(MOST_IN_A_FILE, 1),
        first_filled(MOST_IN_A_FILE, 3),
        set(MOST_IN_A_FILE, &[4096, MOST_IN_A_FILE]),
        first_filled(7168, MOST_CONTOURS),
        last_filled(7168, MOST_CONTOURS),
    ]
}

/// Sets that are too large for a file.
fn not_carried() -> Vec<Set> {
    vec![
        set(0, &[0; MOST_CONTOURS + 1]),
        set(0, &[0; 32_767]),
        set(0, &[0; 32_768]),
        set(0, &[0; MOST_RECORDS]),
        first_filled(MOST_IN_A_FILE, 4),
        first_filled(MOST_IN_A_FILE + 1, 1),
        first_filled(7169, MOST_CONTOURS),
        last_filled(7167, MOST_CONTOURS + 1),
        first_filled(MOST_POINTS / 2 - 1, 1),
        first_filled(MOST_POINTS / 2, 1),
        first_filled(MOST_POINTS, 1),
        first_filled(MOST_POINTS + 1, 1),
    ]
}

/// Files of the most contours and of the most points, and those cut, made longer and
/// otherwise spoilt.
pub fn readings() -> Vec<Case> {
    let mut cases = vec![exact(&file(Edition::One, &[vec![MOST_IN_A_FILE]]))];
    for set in carried() {
        let file = file_of(Edition::One, &set);
        let lengths = around(need(&file));
        cases.extend(lengths.into_iter().map(|lent| reading(lent, &file)));
        cases.extend(spoilt_file(&file).iter().map(|file| reading(LONGEST, file)));
    }
    for bytes in [MOST_BYTES, MOST_BYTES + 1, MOST_BYTES + 64] {
        cases.push(reading(LONGEST, &vec![0x10; bytes]));
        cases.push(reading(LONGEST, &vec![0x20; bytes]));
    }
    cases
}

/// The file cut, longer up to a byte more than a file may have, and with another byte in
/// one of its fields.
fn spoilt_file(file: &[u8]) -> Vec<Vec<u8>> {
    let longer = |bytes: usize| [file, &vec![0; bytes - file.len()]].concat();
    let mut spoilt = vec![
        file[..file.len() - 1].to_vec(),
        longer(file.len() + 1),
        longer(MOST_BYTES + 1),
    ];
    for (place, byte) in [
        (0, 0x2f),
        (1, 0xfe),
        (2, 0),
        (3, 0xff),
        (file.len() - 2, 0x7f),
    ] {
        let mut other = file.to_vec();
        other[place] = byte;
        spoilt.push(other);
    }
    spoilt
}

pub fn writings() -> Vec<Case> {
    let mut cases = vec![];
    for set in [carried(), not_carried()].concat() {
        let beside = |set, more| beside(Edition::One, set, more);
        cases.extend([0, -1, 5, isize::MIN].map(|more| beside(&set, more)));
        cases.extend(spoilt_set(&set).iter().map(|set| beside(set, 0)));
    }
    cases
}

/// The set off the grid, with an empty shape, with ranges that are unsound, and with one
/// number less or more.
fn spoilt_set(set: &Set) -> Vec<Set> {
    let contours = set.contours.len();
    let mut spoilt = vec![set.clone(); 4];
    spoilt[0].points.numbers.fill(NARROW + 1);
    spoilt[1].shapes.push([contours, contours]);
    spoilt[2].contours[contours - 1][0] += 1;
    spoilt[3].points = Row::wound(&[5], 2 * set.points.times - 1);
    spoilt
}
