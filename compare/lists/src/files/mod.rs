//! Set files, read and mended, and sets to be written: their cases, the list of them, and
//! the answers by the reader, the writer and the salvage of `requests`.

mod answers;
pub mod case;
mod changes;
mod cleanings;
pub mod damaged;
pub mod edition_2;
mod large;
mod listing;
mod mend;
pub mod mendings;
mod pictures;
pub mod sound;
mod text;
mod texts;
pub mod writings;

pub use answers::{answer, Reading, Writing};
pub use case::Case;
pub use changes::write_changes;
pub use cleanings::write_cleanings;
pub use listing::write_listings;
pub use mend::{Lent, Mending};
pub use pictures::write_pictures;
pub use texts::write_texts;

use crate::point::OFF_NARROW;
use requests::edition::Edition;

/// How many contours a file has, if it is read.
pub fn contours_read(file: &[u8]) -> Option<usize> {
    let (_, shapes) = requests::edition::read(file).ok()?;
    Some(shapes.concat().len())
}

/// Every case, in the order of the list: files to be read, then sets to be written, then
/// files to be mended; then those of edition 2.
pub fn list() -> Vec<Case> {
    [
        readings(),
        writings(),
        mendings(),
        edition_2::readings(),
        edition_2::writings(),
    ]
    .concat()
}

fn readings() -> Vec<Case> {
    [
        sound::small(Edition::One),
        sound::coordinates(),
        sound::random(),
        sound::rows(Edition::One),
        damaged::cut_and_longer(),
        damaged::bits(),
        damaged::editions(),
        damaged::counts(),
        damaged::beginnings(),
        damaged::off_in_one_place(),
        damaged::random(),
        large::readings(),
    ]
    .concat()
}

fn writings() -> Vec<Case> {
    [
        writings::small(Edition::One),
        writings::ranges(),
        writings::off_in_one_place(Edition::One, &OFF_NARROW),
        writings::off_the_narrow_grid(),
        writings::random(),
        writings::rows(Edition::One),
        large::writings(),
    ]
    .concat()
}

fn mendings() -> Vec<Case> {
    [
        mendings::files(&[readings(), edition_2::not_mended()].concat()),
        mendings::rows(),
        mendings::random(),
    ]
    .concat()
}

#[cfg(test)]
mod tests {
    use super::{answer, list, Case};
    use crate::line::tests::replies_of;

    fn replies(kind: char) -> Vec<u8> {
        replies_of(list(), kind, answer)
    }

    #[test]
    fn every_reply_that_is_due_is_met() {
        assert_eq!(replies('r'), [0, 2, 3, 5, 9, 10, 11, 15, 16]);
        assert_eq!(replies('f'), [0, 1, 2, 3, 5, 6, 12]);
        assert_eq!(replies('F'), [0, 1, 2, 3, 5, 6, 12]);
        assert_eq!(replies('m'), [0, 2, 5, 9, 10]);
    }

    #[test]
    fn what_is_read_is_written_as_it_was() {
        for case in list() {
            if let Case::Reading { file, .. } = case {
                if let Ok((edition, shapes)) = requests::edition::read(&file) {
                    assert_eq!(edition.write(&shapes), file);
                }
            }
        }
    }
}
