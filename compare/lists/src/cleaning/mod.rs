//! Questions about shape sets and their cleaning: the cases, the list of them, and the
//! answers.

mod answers;
pub mod case;
mod chosen;
pub mod cleaned;
mod damaged;
pub mod fates;
pub mod lent;
mod original;
pub mod random;
pub mod rims;

pub use answers::{answer, off_every_boundary, Verdicts};
pub use case::Case;

/// Every case, in the order of the list.
pub fn list() -> Vec<Case> {
    [
        chosen::worked(),
        chosen::holes(),
        chosen::empty_and_collapsed(),
        chosen::wound(),
        chosen::around_the_need(),
        chosen::scans(),
        rims::scans(),
        rims::small(),
        rims::at_the_ends(),
        chosen::wrapping(),
        random::small_grids(),
        random::every_form(),
        damaged::ranges(),
        damaged::off_in_one_place(),
        damaged::at_the_ends(),
        damaged::spoilt(),
        damaged::many_points(),
    ]
    .concat()
}

#[cfg(test)]
mod tests {
    use super::case::Kind;
    use super::{answer, list};
    use crate::line::tests::replies_met;

    #[test]
    fn seven_is_met_for_one_shape_and_every_other_reply_in_every_form() {
        let form = |kind: &Kind| match kind {
            Kind::Cleaning { form, .. } => Some(form.number()),
            Kind::Asked { .. } => None,
        };
        for (form, replies) in replies_met(list(), form, answer) {
            let all = ["0", "1", "2", "3", "4", "5", "6", "7"];
            assert_eq!(replies, all[..if form < 2 { 8 } else { 7 }], "{form}");
        }
    }
}
