//! Drawings in millimetres, coming in and going out: their cases, the list of them, and the
//! answers by the arithmetic of `requests`.

mod answers;
pub mod back;
pub mod case;
pub mod faults;
pub mod floats;
mod large;
pub mod sound;

pub use answers::{answer, Export, Import, FLOAT, KIND, NUMBER, RECORD};
pub use case::Case;

/// Every case, in the order of the list: drawings that come in, then sets that go out.
pub fn list() -> Vec<Case> {
    [
        floats::cases(),
        sound::kinds(),
        sound::rows(),
        sound::random(),
        faults::kinds(),
        faults::bytes(),
        faults::pairs(),
        faults::lengths(),
        faults::in_one_place(),
        faults::random(),
        large::imports(),
        back::small(),
        back::lengths(),
        back::coordinates(),
        back::ranges(),
        back::off_in_one_place(),
        back::off_the_narrow_grid(),
        back::rows(),
        back::random(),
        large::exports(),
    ]
    .concat()
}

#[cfg(test)]
mod tests {
    use super::{answer, list};
    use crate::line::tests::replies_of;

    fn replies(kind: char) -> Vec<u8> {
        replies_of(list(), kind, answer)
    }

    #[test]
    fn every_reply_that_is_due_is_met() {
        assert_eq!(replies('i'), [0, 2, 3, 5, 13, 14]);
        assert_eq!(replies('e'), [0, 1, 2, 3, 5, 6]);
    }
}
