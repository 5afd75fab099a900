//! Files of edition 2 to be read, and sets to be written as such.

pub mod damaged;
mod large;
pub mod raw;
pub mod sound;
mod widths;
pub mod writings;

use super::case::Case;
use crate::point::OFF_GRID;
use requests::edition::Edition;

/// Files to be read, sound ones first.
pub fn readings() -> Vec<Case> {
    [
        sound::example(),
        super::sound::small(Edition::Two),
        sound::coordinates(),
        sound::random(),
        super::sound::rows(Edition::Two),
        widths::both_ends(),
        widths::others(),
        widths::without_differences(),
        damaged::cut(),
        damaged::longer(),
        damaged::fills(),
        damaged::bits(),
        damaged::counts(),
        damaged::beginnings(),
        damaged::off_the_grid(),
        damaged::random(),
        large::readings(),
    ]
    .concat()
}

/// Files that are not mended, being of edition 2.
pub fn not_mended() -> Vec<Case> {
    [
        super::sound::small(Edition::Two),
        widths::without_differences(),
    ]
    .concat()
}

pub fn writings() -> Vec<Case> {
    [
        super::writings::small(Edition::Two),
        writings::ranges(),
        writings::differences(),
        super::writings::off_in_one_place(Edition::Two, &OFF_GRID),
        writings::random(),
        super::writings::rows(Edition::Two),
        large::writings(),
    ]
    .concat()
}
