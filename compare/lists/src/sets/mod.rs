//! Shape sets, flat: their cases, the list of them, and the answers.

mod answers;
pub mod case;
pub mod chosen;
pub mod flat;
pub mod packing;
pub mod random;
pub mod ranges;
pub mod rows;
pub mod small;

pub use answers::answer;
pub use case::Case;

/// Every case of a set, in the order of the list.
pub fn list() -> Vec<Case> {
    [
        small::shapes(),
        small::empty_shapes(),
        ranges::of_a_set(),
        ranges::of_an_addition(),
        random::sound(),
        random::damaged(),
        chosen::off_in_one_place(),
        chosen::at_the_ends(),
        chosen::off_the_narrow_grid(),
        chosen::rows(),
        chosen::many_records(),
        chosen::many_points(),
    ]
    .concat()
}

#[cfg(test)]
mod tests {
    use super::case::Kind;
    use super::{answer, list};
    use crate::line::tests::replies_met;

    #[test]
    fn every_reply_that_is_due_is_met_in_every_form() {
        let form = |kind: &Kind| match kind {
            Kind::Packing(call) => Some(call.form.number()),
            Kind::Asked => None,
        };
        for (form, replies) in replies_met(list(), form, answer) {
            let due: &[&str] = match form {
                0 | 4 => &["0", "1", "2", "3", "5"],
                _ => &["0", "1", "2", "3", "5", "6"],
            };
            assert_eq!(replies, due, "{form}");
        }
    }
}
