//! What the original does not have, written from the sentences of documents 01 and 02 alone:
//! the replies, whether ranges are sound, the set file of both editions, what is sound of a damaged one,
//! a job as text, drawings in millimetres, where a point lies, the walk with its turns, what becomes
//! of each contour that is cleaned, two sets compared, and two presses that share a pool.

pub mod bits;
pub mod difference;
pub mod drawing;
pub mod edition;
pub mod edition_1;
pub mod edition_2;
pub mod exact;
pub mod fates;
pub mod grid;
pub mod locate;
pub mod pool;
pub mod ranges;
pub mod reply;
pub mod salvage;
pub mod text;
pub mod walk;
