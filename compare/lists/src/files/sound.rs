//! Sound files, read into rows as long as needed, longer and shorter.

use super::case::{Case, LONGEST};
use crate::point::NARROW;
use crate::rng::Rng;
use crate::sets::flat::Set;
use crate::sets::random;
use crate::sets::rows::{Lengths, OFFSETS};
use crate::sets::small::{rows_up_to, set};
use requests::edition::{read, Edition, MOST_BYTES};
use requests::edition_1::write;

pub fn reading(lent: Lengths, file: &[u8]) -> Case {
    let file = file.to_vec();
    Case::Reading { lent, file }
}

/// A sound file, with rows exactly as long as needed.
pub fn exact(file: &[u8]) -> Case {
    reading(need(file), file)
}

/// Exactly as long as what is in the file.
pub fn need(file: &[u8]) -> Lengths {
    let (_, shapes) = read(file).expect("a sound file");
    let set = Set::of(&shapes);
    Lengths {
        out: set.points.all().len(),
        records: set.contours.len(),
        groups: set.shapes.len(),
    }
}

/// The file of a set that a file can carry.
pub fn file_of(edition: Edition, set: &Set) -> Vec<u8> {
    let points = set.points.all();
    let file = edition.written(&points, &set.contours, &set.shapes, MOST_BYTES);
    file.expect("a file carries it")
}

/// The file of the shapes whose contours have so many points.
pub fn file(edition: Edition, sizes: &[Vec<usize>]) -> Vec<u8> {
    file_of(edition, &set(sizes))
}

/// All files of up to two shapes of up to two contours of no point, one or three.
pub fn small(edition: Edition) -> Vec<Case> {
    let mut shapes = rows_up_to(2, &[0, 1, 3]);
    shapes.retain(|sizes| !sizes.is_empty());
    let files = rows_up_to(2, &shapes);
    let case = |sizes: &Vec<_>| exact(&file(edition, sizes));
    files.iter().map(case).collect()
}

/// Coordinates at the ends of the narrow grid, around zero, and with ones and zeros in every byte.
pub fn coordinates() -> Vec<Case> {
    let mut chosen = vec![0, 1, -1, NARROW, NARROW - 1, -NARROW, 1 - NARROW];
    chosen.extend([0x0102_0304, 0x1020_3040, 0x00ff_00ff, -0x0102_0304]);
    for power in [7, 8, 15, 16, 23, 24, 28] {
        let power = 1 << power;
        chosen.extend([power, power - 1, -power, -power - 1]);
    }
    let file = |&number: &i32| write(&[vec![vec![[number, 5], [-6, number]]]]);
    chosen.iter().map(|number| exact(&file(number))).collect()
}

/// Files of up to five shapes of up to four contours.
pub fn random() -> Vec<Case> {
    let rng = &mut Rng::new(601);
    let cases = (0..120).map(|_| exact(&random_file(rng)));
    cases.collect()
}

pub fn random_file(rng: &mut Rng) -> Vec<u8> {
    let mut set = random::set(NARROW, rng);
    set.shapes.retain(|[start, end]| start < end);
    file_of(Edition::One, &set)
}

/// Rows around the need, none, and the longest.
pub fn around(need: Lengths) -> Vec<Lengths> {
    let beside = |offsets| need.beside(offsets, LONGEST);
    let none = beside([isize::MIN; 3]);
    [&OFFSETS.map(beside)[..], &[none, LONGEST]].concat()
}

/// Chosen files with every choice of rows.
pub fn rows(edition: Edition) -> Vec<Case> {
    let mut cases = vec![];
    for sizes in [
        &[][..],
        &[vec![0]],
        &[vec![1]],
        &[vec![0, 0], vec![0]],
        &[vec![4, 3], vec![0], vec![3]],
    ] {
        let file = file(edition, sizes);
        let lengths = around(need(&file));
        cases.extend(lengths.into_iter().map(|lent| reading(lent, &file)));
    }
    cases
}
