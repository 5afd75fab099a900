//! Two presses that share a pool: histories of their calls, the list of them, and the answers.

mod answers;
pub mod case;
pub mod chosen;
pub mod random;

pub use answers::{answer, run, Told};
pub use case::Case;

/// Every history, in the order of the list.
pub fn list() -> Vec<Case> {
    [
        chosen::small(),
        chosen::refusals(),
        chosen::at_the_limits(),
        chosen::short_rows(),
        chosen::unsound(),
        chosen::many(),
        random::histories(),
        random::damaged(),
    ]
    .concat()
}

#[cfg(test)]
mod tests {
    use super::{answer, list};
    use std::collections::BTreeSet;

    #[test]
    fn every_reply_that_is_due_is_met() {
        let reply = |case| answer(&case).split(' ').next().unwrap().parse().unwrap();
        let met: BTreeSet<u8> = list().into_iter().map(reply).collect();
        assert_eq!(Vec::from_iter(met), [0, 1, 2, 3, 5, 6, 17, 18]);
    }
}
