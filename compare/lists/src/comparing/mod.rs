//! Two sets compared: the cases, the list of them, and the answers by the comparison of `requests`.

mod answers;
pub mod case;
mod chosen;
pub mod damaged;
pub mod random;
pub mod words;

pub use answers::{answer, sets, Comparison, RECORD};
pub use case::Case;

/// Every case, in the order of the list.
pub fn list() -> Vec<Case> {
    [
        words::all_pairs(5, 2),
        words::all_pairs(3, 3),
        words::repeated(),
        words::all_but_one(),
        chosen::worked(),
        chosen::counts(),
        chosen::many_points(),
        random::cases(),
        damaged::at_the_ends(),
        damaged::spoilt(),
    ]
    .concat()
}

#[cfg(test)]
mod tests {
    use super::{answer, list};
    use crate::line::tests::replies_of;

    #[test]
    fn every_reply_that_is_due_is_met() {
        assert_eq!(replies_of(list(), 'd', answer), [0, 1, 2, 3, 5, 6]);
    }
}
