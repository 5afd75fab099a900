//! Random files of edition 2 to be read, and random sets to be written as such.

use super::short::{self, wide_set};
use crate::tally::Tally;
use lists::files::case::LONGEST;
use lists::files::contours_read;
use lists::files::damaged::damage;
use lists::files::edition_2::damaged::{damaged_file, rows};
use lists::files::edition_2::raw::{file_of, first_bits, Contour};
use lists::files::edition_2::sound::{random_file, stroll};
use lists::files::edition_2::writings::stepped;
use lists::files::sound::{need, reading};
use lists::files::writings::beside;
use lists::rng::Rng;
use lists::sets::flat::Set;
use requests::edition::Edition;

/// The most bytes and contours of a file, and the most points of a contour in one.
const MOST_BYTES: usize = 65_536;
const MOST_CONTOURS: usize = 4095;
const MOST_IN_ONE: usize = 32_767;

/// Half of them damaged.
pub fn read(tally: &mut Tally, rng: &mut Rng) {
    tally.compare(&short::read(random_file, damaged_file, rows, rng));
}

/// Half the sets go in steps of a width of their own.
pub fn written(tally: &mut Tally, rng: &mut Rng) {
    let set = match rng.below(2) {
        0 => wide_set(rng),
        _ => stepped(rng),
    };
    tally.compare(&short::written(Edition::Two, set, rng));
}

/// A file of up to 65,537 bytes, half of them damaged, and the set of as many contours.
pub fn long(tally: &mut Tally, rng: &mut Rng) {
    let contours = many(rng);
    let mut file = file_of(&contours);
    match rng.below(8) {
        0 => file = first_bits(&file, rng.below(8 * file.len() + 1)),
        1 | 2 => damage(&mut file, rng),
        3 => file.resize(MOST_BYTES + 1, 0x80),
        _ => file.truncate(MOST_BYTES + 1),
    }
    let lent = match contours_read(&file) {
        None => LONGEST,
        Some(_) => {
            let offsets = [(); 3].map(|()| rng.pick(&[-1, 0, 0, 0, 0, 0, 1, 3]));
            need(&file).beside(offsets, LONGEST)
        }
    };
    tally.compare(&reading(lent, &file));
    let shape = |contour: &Contour| {
        let places = contour.places.iter();
        places
            .map(|place| place.map(|number| number as i32))
            .collect()
    };
    let set = Set::of(&[contours.iter().map(shape).collect()]);
    let more = rng.pick(&[-1, 0, 0, 1, 5]);
    tally.compare(&beside(Edition::Two, &set, more));
}

/// Few contours of many points or many of few, as many as a file has bits for, and now and then a contour more.
fn many(rng: &mut Rng) -> Vec<Contour> {
    let most = rng.pick(&[1, 5, 60, 800, MOST_CONTOURS]);
    let mut left = 8 * MOST_BYTES;
    let mut contours = vec![];
    while contours.len() < most && left > 0 {
        let share = 2 * left / (2 * rng.between(1, 32) as usize * (most - contours.len()));
        let count = rng.below(share.min(MOST_IN_ONE) + 1);
        let contour = Contour::of_points(
            contours.is_empty() || rng.below(4) == 0,
            &stroll(count, rng),
        );
        let bits = 86 + 2 * count * contour.width;
        if bits > left && rng.below(8) > 0 {
            left = 0;
            continue;
        }
        left = left.saturating_sub(bits);
        contours.push(contour);
    }
    contours
}
