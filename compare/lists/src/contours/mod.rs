//! Contours: their cases, the list of them, and the answers.

mod answers;
pub mod asked;
pub mod case;
pub mod damaged;
mod ends;
pub mod kept;
mod known;
pub mod lent;
pub mod located;
mod long;
pub mod random;
pub mod rows;
pub mod tiny;
pub mod unclean;

pub use answers::{answer, column, contains, yes_or_no, Verdicts};
pub use case::Case;

/// Every case of a contour, in the order of the list: contours of every form, then those for the
/// cleaners, then the cleanings with rows of given lengths, then what is handed out after one,
/// then the points that are located.
pub fn list() -> Vec<Case> {
    [
        known::worked(),
        known::limits(),
        known::readings(),
        ends::asked(),
        tiny::cases(),
        asked::scans(),
        random::cases(),
        damaged::cases(),
        long::wound(),
        long::written_out(),
        known::successors(),
        known::idle(),
        unclean::from_every_start(),
        unclean::collapsing(),
        unclean::random(),
        unclean::long(),
        lent::around_the_need(),
        lent::chosen(),
        lent::random(),
        lent::large(),
        ends::cleaned(),
        kept::small(),
        kept::wrapping(),
        kept::long(),
        located::known(),
        located::across(),
        located::tiny(),
        located::scans(),
        located::random(),
        located::at_the_ends(),
        located::damaged(),
        ends::located(),
        located::long(),
    ]
    .concat()
}
