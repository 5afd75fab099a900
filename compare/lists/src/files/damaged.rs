//! Files that are damaged, and some that are sound in spite of it.

use super::case::Case;
use super::sound::{file, random_file, reading};
use crate::point::OFF_NARROW;
use crate::rng::Rng;
use crate::sets::rows::Lengths;
use requests::edition::Edition;

/// With room for whatever a file of this length can carry, or with none, in turn.
fn in_turn(files: Vec<Vec<u8>>) -> Vec<Case> {
    let case = |(turn, file): (usize, Vec<u8>)| reading(rows(turn, file.len()), &file);
    files.into_iter().enumerate().map(case).collect()
}

pub fn rows(turn: usize, bytes: usize) -> Lengths {
    match turn % 3 {
        2 => Lengths {
            out: 0,
            records: 0,
            groups: 0,
        },
        _ => Lengths {
            out: bytes / 4 + 1,
            records: bytes / 2 + 2,
            groups: bytes / 2 + 3,
        },
    }
}

/// Short files with every field there is.
fn files() -> Vec<Vec<u8>> {
    [
        &[][..],
        &[vec![0]],
        &[vec![2]],
        &[vec![0, 1]],
        &[vec![1], vec![0, 2]],
        &[vec![0, 0], vec![3], vec![0]],
    ]
    .map(|sizes| file(Edition::One, sizes))
    .to_vec()
}

/// Where the header of each contour of a sound file stands.
pub fn headers(file: &[u8]) -> Vec<usize> {
    let mut places = vec![];
    let mut place = 2;
    while place < file.len() {
        places.push(place);
        place += 2 + 8 * usize::from(pair(file, place) & 0x7fff);
    }
    places
}

pub fn pair(file: &[u8], place: usize) -> u16 {
    u16::from_be_bytes([file[place], file[place + 1]])
}

/// The file with another number in these two bytes.
pub fn with_pair(file: &[u8], place: usize, number: u16) -> Vec<u8> {
    let mut file = file.to_vec();
    file[place..place + 2].copy_from_slice(&number.to_be_bytes());
    file
}

fn longer(file: &[u8], more: &[u8]) -> Vec<u8> {
    [file, more].concat()
}

/// Each file cut at every length, and with bytes behind it.
pub fn cut_and_longer() -> Vec<Case> {
    let mut damaged = vec![];
    for file in files() {
        damaged.extend((0..file.len()).map(|length| file[..length].to_vec()));
        for more in [&[0][..], &[0xff], &[0x80, 0], &[0; 8], &[0x10; 10]] {
            damaged.push(longer(&file, more));
        }
    }
    in_turn(damaged)
}

/// Each file with each of its bits turned over.
pub fn bits() -> Vec<Case> {
    let mut damaged = vec![];
    for file in files() {
        for place in 0..8 * file.len() {
            let mut other = file.clone();
            other[place / 8] ^= 0x80 >> (place % 8);
            damaged.push(other);
        }
    }
    in_turn(damaged)
}

/// Every edition, of a file that is whole, short or too long.
pub fn editions() -> Vec<Case> {
    let mut damaged = vec![];
    for edition in 0..16 {
        for file in [&[0, 1, 0x80, 0][..], &[0], &[0, 0], &[0, 1, 0], &[0, 0, 0]] {
            let mut file = file.to_vec();
            file[0] = edition << 4;
            damaged.push(file);
        }
    }
    in_turn(damaged)
}

/// Each file with other counts of contours and of a contour's points.
pub fn counts() -> Vec<Case> {
    let mut damaged = vec![];
    for file in files() {
        let count = pair(&file, 0) & 0xfff;
        for other in around(count.into(), 0xfff) {
            damaged.push(with_pair(&file, 0, 0x1000 | other as u16));
        }
        for place in headers(&file) {
            let header = pair(&file, place);
            let count = header & 0x7fff;
            for other in around(count.into(), 0x7fff) {
                damaged.push(with_pair(&file, place, header & 0x8000 | other as u16));
            }
        }
    }
    in_turn(damaged)
}

/// A little more than the count, a little less, and the ends.
pub fn around(count: usize, most: usize) -> Vec<usize> {
    let less = [count.saturating_sub(1), count.saturating_sub(2), 0];
    let more = [count + 1, count + 2, count + 8, most / 2, most - 1, most];
    [less.to_vec(), more.to_vec()].concat()
}

/// Each file with a contour that begins a shape or not, contrary to before; that with
/// points missing, with bytes left over, and off the grid.
pub fn beginnings() -> Vec<Case> {
    let mut damaged = vec![vec![0x10, 1, 0, 1], vec![0x10, 1, 0, 0], vec![0x10, 2, 0]];
    for file in files() {
        for place in headers(&file) {
            let other = with_pair(&file, place, pair(&file, place) ^ 0x8000);
            damaged.push(other[..other.len() - 1].to_vec());
            damaged.push(other[..place + 2].to_vec());
            damaged.push(other[..place + 1].to_vec());
            damaged.push(longer(&other, &[0]));
            damaged.push(with_first_off(&other));
            damaged.push(other);
        }
    }
    in_turn(damaged)
}

/// The file with its first coordinate off the grid, if it has one.
fn with_first_off(file: &[u8]) -> Vec<u8> {
    let mut file = file.to_vec();
    let filled = |&&place: &&usize| pair(&file, place) & 0x7fff > 0;
    if let Some(&place) = headers(&file).iter().find(filled) {
        file[place + 2..place + 6].copy_from_slice(&OFF_NARROW[0].to_be_bytes());
    }
    file
}

/// A file of which one coordinate is off the grid, in each place in turn: whole, short,
/// and with bytes left over.
pub fn off_in_one_place() -> Vec<Case> {
    let file = file(Edition::One, &[vec![2, 0, 1], vec![3]]);
    let mut damaged = vec![];
    for header in headers(&file) {
        let points = usize::from(pair(&file, header) & 0x7fff);
        for number in 0..2 * points {
            for off in OFF_NARROW {
                let mut file = file.clone();
                let place = header + 2 + 4 * number;
                file[place..place + 4].copy_from_slice(&off.to_be_bytes());
                damaged.push(file);
            }
            let last = damaged[damaged.len() - 1 - number % OFF_NARROW.len()].clone();
            damaged.push(longer(&last, &[0]));
            damaged.push(last[..last.len() - 1].to_vec());
        }
    }
    in_turn(damaged)
}

/// Files with one to three damages; two may undo each other.
pub fn random() -> Vec<Case> {
    let rng = &mut Rng::new(602);
    in_turn((0..300).map(|_| damaged_file(rng)).collect())
}

pub fn damaged_file(rng: &mut Rng) -> Vec<u8> {
    let mut file = random_file(rng);
    for _ in 0..rng.pick(&[1, 1, 2, 3]) {
        damage(&mut file, rng);
    }
    file
}

pub fn damage(file: &mut Vec<u8>, rng: &mut Rng) {
    let place = rng.below(file.len());
    match rng.below(6) {
        0 => file.truncate(place),
        1 => file.extend([0, 0x80, 0xff].repeat(rng.below(4))),
        2 => file.push(0),
        3 if !file.is_empty() => drop(file.remove(place)),
        4 if !file.is_empty() => file[place] ^= 0x80 >> rng.below(8),
        _ if !file.is_empty() => file[place] = rng.below(256) as u8,
        _ => file.push(0x10),
    }
}
