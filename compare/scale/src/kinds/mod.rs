//! The kinds of input.

mod compared;
mod drawn;
mod edition_2;
mod every;
mod long;
mod mending;
mod moved;
mod pools;
mod ranges;
mod short;

use crate::input::Input;
use crate::tally::Tally;
use lists::once;
use lists::rng::Rng;

pub struct Kind {
    pub name: &'static str,
    pub inputs: Inputs,
}

pub enum Inputs {
    /// The same in every run.
    All(fn(&mut Tally)),
    /// One random input, or some that belong together, for so many random contours of the run.
    OneFor(usize, fn(&mut Tally, &mut Rng)),
}

use Inputs::{All, OneFor};

impl Kind {
    const fn new(name: &'static str, inputs: Inputs) -> Kind {
        Kind { name, inputs }
    }

    /// Compares the inputs of a run of so many random contours.
    pub fn compare(&self, contours: usize, seed: u64) -> Tally {
        let mut tally = Tally::default();
        match self.inputs {
            All(compare) => compare(&mut tally),
            OneFor(share, compare) => {
                let rng = &mut Rng::new(seed);
                for _ in 0..contours / share {
                    compare(&mut tally, rng);
                }
            }
        }
        tally
    }
}

pub const KINDS: [Kind; 44] = [
    Kind::new("the list of contours", All(short::list_of_contours)),
    Kind::new("the list of sets", All(short::list_of_sets)),
    Kind::new(
        "the list of sets judged and cleaned",
        All(|tally| each(tally, once(lists::cleaning::list()))),
    ),
    Kind::new(
        "the list of files",
        All(|tally| each(tally, once(lists::files::list()))),
    ),
    Kind::new(
        "all contours of up to 6 points on 3 by 3",
        All(every::on_three_by_three),
    ),
    Kind::new(
        "all contours of up to 5 points at the ends of the grid",
        All(every::at_the_ends),
    ),
    Kind::new(
        "all contours of up to 3 points at the ends and one past",
        All(every::one_past),
    ),
    Kind::new(
        "files and drawings at the ends of both grids and one past",
        All(every::carried_at_the_ends),
    ),
    Kind::new("random contours", OneFor(1, short::contour)),
    Kind::new(
        "random contours of up to 65,537 points",
        OneFor(5000, long::contour),
    ),
    Kind::new("damaged contours", OneFor(10, short::damaged)),
    Kind::new(
        "cleanings of contours, rows around the need",
        OneFor(20, short::cleaned),
    ),
    Kind::new("sets asked", OneFor(20, short::set_asked)),
    Kind::new(
        "sets cleaned, rows around the need",
        OneFor(50, short::set_cleaned),
    ),
    Kind::new(
        "packings and additions, rows around the need",
        OneFor(50, short::packed),
    ),
    Kind::new(
        "sets of up to 65,537 points, every call",
        OneFor(50_000, long::set),
    ),
    Kind::new(
        "files read, sound and damaged",
        OneFor(20, short::file_read),
    ),
    Kind::new("files written", OneFor(20, short::file_written)),
    Kind::new(
        "files mended, sound and damaged",
        OneFor(20, mending::short),
    ),
    Kind::new(
        "files mended, of up to 65,537 bytes",
        OneFor(5000, mending::long),
    ),
    Kind::new(
        "all rows of up to 3 ranges at the ends of usize",
        All(ranges::at_the_ends),
    ),
    Kind::new("rows of ranges, sound and damaged", OneFor(10, ranges::any)),
    Kind::new(
        "the list of drawings",
        All(|tally| each(tally, once(lists::drawings::list()))),
    ),
    Kind::new(
        "drawings, sound and damaged, rows around the need",
        OneFor(5, drawn::imported),
    ),
    Kind::new(
        "sets given back as drawings, rows around the need",
        OneFor(10, drawn::exported),
    ),
    Kind::new(
        "drawings and sets of up to 69,537 points",
        OneFor(5000, drawn::long),
    ),
    Kind::new(
        "all contours of up to 5 points on 3 by 3, located everywhere",
        All(every::located_on_three_by_three),
    ),
    Kind::new(
        "points located, at the ends of the grid and amid others",
        OneFor(5, short::located),
    ),
    Kind::new(
        "points on the rims of outlines and holes",
        OneFor(10, short::on_rims),
    ),
    Kind::new(
        "files of edition 2 read, sound and damaged",
        OneFor(20, edition_2::read),
    ),
    Kind::new("files of edition 2 written", OneFor(20, edition_2::written)),
    Kind::new(
        "files of edition 2, of up to 65,537 bytes, and their sets",
        OneFor(5000, edition_2::long),
    ),
    Kind::new(
        "random contours shifted, reversed and started elsewhere",
        OneFor(1, moved::contour),
    ),
    Kind::new("sets shifted, asked and cleaned", OneFor(20, moved::set)),
    Kind::new(
        "the list of sets compared",
        All(|tally| each(tally, once(lists::comparing::list()))),
    ),
    Kind::new(
        "all pairs of words of up to 9 letters, compared",
        All(compared::words),
    ),
    Kind::new(
        "sets compared, and what became of them",
        OneFor(5, compared::any),
    ),
    Kind::new(
        "sets compared, damaged, listings and none",
        OneFor(20, compared::spoilt),
    ),
    Kind::new(
        "contours of up to 65,536 points compared",
        OneFor(5000, compared::long),
    ),
    Kind::new(
        "the list of histories of a pool",
        All(|tally| each(tally, once(lists::pools::list()))),
    ),
    Kind::new("histories of a pool, 40 calls", OneFor(400, pools::short)),
    Kind::new(
        "histories of a pool, 1,000 calls",
        OneFor(100_000, pools::long),
    ),
    Kind::new(
        "pools full of contours of a point or none, 10 calls",
        OneFor(100_000, pools::full),
    ),
    Kind::new(
        "pools damaged, in short rows, or sound, 4 calls",
        OneFor(500, pools::damaged),
    ),
];

fn each<I: Input>(tally: &mut Tally, inputs: Vec<I>) {
    for input in &inputs {
        tally.compare(input);
    }
}
