//! Random files to be mended.

use crate::tally::Tally;
use lists::files::damaged::damaged_file;
use lists::files::mendings::{damaged, file_of, mending, offsets, Contour};
use lists::files::sound::random_file;
use lists::point::{NARROW, OFF_NARROW};
use lists::rng::Rng;

/// The most bytes and the most contours of a file.
const MOST_BYTES: usize = 65_536;
const MOST_CONTOURS: usize = 4095;

pub fn short(tally: &mut Tally, rng: &mut Rng) {
    let file = match rng.below(4) {
        0 => damaged_file(rng),
        1 => {
            let count = rng.below(12);
            let contours: Vec<Contour> = (0..count).map(|_| contour(4, rng)).collect();
            damaged(file_of(&contours), rng)
        }
        _ => damaged(random_file(rng), rng),
    };
    tally.compare(&mending(&file, offsets(rng)));
}

/// Of up to 65,537 bytes.
pub fn long(tally: &mut Tally, rng: &mut Rng) {
    let mut file = damaged(file_of(&many(rng)), rng);
    match rng.below(8) {
        0 => file.resize(MOST_BYTES, 0x80),
        1 => file.resize(MOST_BYTES + 1, 0x80),
        _ => file.truncate(MOST_BYTES + 1),
    }
    tally.compare(&mending(&file, offsets(rng)));
}

/// Up to so many points. One contour in four begins a shape, and one in eight has a coordinate off the narrow grid.
fn contour(most: usize, rng: &mut Rng) -> Contour {
    let reach = rng.pick(&[9, NARROW]);
    let count = rng.below(most + 1);
    let mut points: Vec<_> = (0..count).map(|_| rng.point(reach)).collect();
    if count > 0 && rng.below(8) == 0 {
        points[rng.below(count)][rng.below(2)] = rng.pick(&OFF_NARROW);
    }
    (rng.below(4) == 0, points)
}

/// Few contours of many points or many of few, as many as a file has room for.
fn many(rng: &mut Rng) -> Vec<Contour> {
    let most = rng.pick(&[1, 5, 60, 800, MOST_CONTOURS]);
    let mut left = MOST_BYTES - 2;
    let mut contours = vec![];
    while contours.len() < most && left >= 2 {
        let share = 2 * left / (8 * (most - contours.len()));
        let contour = contour(share.min((left - 2) / 8), rng);
        left -= 2 + 8 * contour.1.len();
        contours.push(contour);
    }
    contours
}
