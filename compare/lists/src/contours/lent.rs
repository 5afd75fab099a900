//! Cleanings with rows as long as needed, longer and shorter.

use crate::cleaner::Cleaner;
use crate::contours::case::{Case, Kind};
use crate::contours::known::lines;
use crate::contours::rows::{Lengths, MOST_OUT, MOST_SCRATCH};
use crate::contours::unclean::{returning, spoilt};
use crate::point::{Point, LIMIT, MOST_POINTS};
use crate::rng::Rng;
use crate::scratch;

/// By how much the rows differ from the need: next, prev, mark and out.
type Offsets = [isize; 4];

/// Rows that are too short come one by one, then together: 4 is due before 5.
const OFFSETS: [Offsets; 17] = [
    [0, 0, 0, 0],
    [1, 1, 1, 1],
    [3, 5, 2, 7],
    [1, 0, 0, 0],
    [0, 1, 0, 0],
    [0, 0, 1, 0],
    [0, 0, 0, 1],
    [-1, 0, 0, 0],
    [0, -1, 0, 0],
    [0, 0, -1, 0],
    [0, 0, 0, -1],
    [0, 0, 0, -2],
    [9, 9, 9, -1],
    [9, 9, -1, 9],
    [-1, 0, 0, -1],
    [0, -1, 0, -1],
    [0, 0, -1, -1],
];

fn cleaning(cleaner: Cleaner, lent: Lengths, numbers: &[i32]) -> Case {
    Case::new(Kind::Cleaning { cleaner, lent }, numbers)
}

/// The row `numbers`, `times` over, with each cleaner and each choice of rows.
fn with_each(numbers: &[i32], times: usize, choices: &[Lengths]) -> Vec<Case> {
    let mut cases = vec![];
    for cleaner in Cleaner::BOTH {
        for &lent in choices {
            cases.push(cleaning(cleaner, lent, numbers).wound(times));
        }
    }
    cases
}

/// What a contour of so many points needs.
pub fn need(points: usize) -> Lengths {
    Lengths {
        scratch: scratch::Lengths::all(points),
        out: 2 * points,
    }
}

fn longest() -> Lengths {
    Lengths {
        scratch: scratch::Lengths::all(MOST_SCRATCH),
        out: MOST_OUT,
    }
}

/// Rows longer or shorter by the offsets, if none would be shorter than nothing.
pub fn beside(need: Lengths, [next, prev, mark, out]: Offsets) -> Option<Lengths> {
    Some(Lengths {
        scratch: need.scratch.beside([next, prev, mark])?,
        out: need.out.checked_add_signed(out)?,
    })
}

/// Rows around the need, none, and the longest.
fn choices(points: usize) -> Vec<Lengths> {
    let around = |offsets| beside(need(points), offsets);
    let mut choices: Vec<Lengths> = OFFSETS.into_iter().filter_map(around).collect();
    choices.extend([need(0), longest()]);
    choices
}

/// Short contours that are kept, that collapse and that are refused, with every choice
/// of rows and with none.
pub fn around_the_need() -> Vec<Case> {
    const CONTOURS: &[&[i32]] = &[
        // Kept.
        &[0, 0, 4, 0, 0, 4],
        &[0, 0, 2, 0, 4, 0, 4, 4, 0, 4],
        &[0, 0, 4, 0, 4, 4, 4, 8, 4, 4, 0, 4],
        &[0, 0, 0, 0, 4, 0, 0, 4],
        &[0, 10, 6, -8, -10, 3, 10, 3, -6, -8],
        &[0, 0, 4, 4, 4, 0, 0, 4],
        &[3, 0, 4, 0, 4, 4, 0, 4, 0, 0, 1, 0, 2, 0],
        &[6, 0, 4, 0, 4, 4, 0, 4, 0, 0, 4, 0],
        &[0, 0, 0, 1, 1, 0, 2, 0],
        &[0, 0, 1, 0, 0, 1, 2, 0, 0, 0, 2, 1],
        &[1, 0, 3, 0, 0, 1, 2, 0, 0, 0],
        &[LIMIT, LIMIT, -LIMIT, LIMIT, -LIMIT, -LIMIT, 0, -LIMIT],
        // Collapsed.
        &[],
        &[5, 5],
        &[0, 0, 2, 2],
        &[0, 0, 1, 0, 2, 0],
        &[0, 0, 4, 0, 4, 0],
        &[7, 7, 7, 7, 7, 7, 7, 7],
        &[1, 3, 2, 0, 3, 3, 2, 0, 1, 3, 0, 0],
        // An odd count; off the grid; both.
        &[5],
        &[0, 0, 4, 0, 0],
        &[LIMIT + 1, 0],
        &[0, 0, 4, 0, 0, -LIMIT - 1],
        &[0, 0, 4, 0, 0, 4, i32::MIN],
    ];
    let each = |numbers: &&[i32]| with_each(numbers, 1, &choices(numbers.len() / 2));
    CONTOURS.iter().flat_map(each).collect()
}

/// Room for the result alone is not enough, an odd length of the output is as good as
/// another, and rows beside one that is too short may be of any length.
pub fn chosen() -> Vec<Case> {
    lines(&[
        "w 0 5 5 5 8 0 0 2 0 4 0 4 4 0 4",
        "w 0 5 5 5 9 0 0 2 0 4 0 4 4 0 4",
        "w 0 5 5 5 11 0 0 2 0 4 0 4 4 0 4",
        "w 1 4 4 4 6 0 0 0 0 4 0 0 4",
        "w 1 4 4 4 7 0 0 0 0 4 0 0 4",
        "w 0 6 6 6 8 0 0 4 0 4 4 4 8 4 4 0 4",
        "w 1 6 6 6 8 0 0 4 0 4 4 4 8 4 4 0 4",
        "w 0 2 2 2 0 0 0 2 2",
        "w 1 2 2 2 0 0 0 2 2",
        "w 0 2 2 2 4 0 0 2 2",
        "w 1 2 2 2 4 0 0 2 2",
        "w 0 0 5 5 10 0 0 2 0 4 0 4 4 0 4",
        "w 0 65600 0 65600 0 0 0 2 0 4 0 4 4 0 4",
        "w 1 65600 65600 0 0 0 0 2 0 4 0 4 4 0 4",
        "w 1 65600 65600 65600 0 0 0 2 0 4 0 4 4 0 4",
        "w 1 0 0 0 131200 0 0 2 0 4 0 4 4 0 4",
    ])
}

/// Spoilt polygons with rows a little shorter or longer than needed.
pub fn random() -> Vec<Case> {
    let rng = &mut Rng::new(401);
    let mut cases = vec![];
    for _ in 0..100 {
        let contour = spoilt(rng);
        cases.extend(around_a_need(&contour, rng));
    }
    cases
}

/// The contour by each cleaner, with rows a little shorter or longer than needed.
pub fn around_a_need(contour: &[Point], rng: &mut Rng) -> Vec<Case> {
    let mut offsets = || [(); 4].map(|()| rng.pick(&[-1, 0, 0, 0, 0, 1, 2, 5]));
    let lent = loop {
        if let Some(lent) = beside(need(contour.len()), offsets()) {
            break lent;
        }
    };
    with_each(&contour.concat(), 1, &[lent])
}

/// Contours of the most points, of one less and of one more; and the long family with
/// rows exactly as long as needed.
pub fn large() -> Vec<Case> {
    const WOUND: &[(&[i32], usize)] = &[
        (&[0, 0, 1, 0, 1, 1, 0, 1], 16_384),
        (&[0, 0, 3, 0], 32_768),
        (&[0, 0, 1, 0, 2, 0, 2, 2], 16_384),
        (&[0, 0, 4, 0, 0, 4], 21_845),
        (&[7, 7], 65_536),
        (&[7, 7], 65_537),
        (&[LIMIT + 1, 7], 65_537),
        (&[0, 0, 1, 0, 1, 1, 0, LIMIT + 1], 16_384),
        (&[5], 131_073),
    ];
    let each = |&(numbers, times): &(&[i32], usize)| {
        with_each(numbers, times, &choices(numbers.len() * times / 2))
    };
    let family = |n| cleaning(Cleaner::Despiked, need(n), &returning(n).concat());
    let mut cases: Vec<Case> = WOUND.iter().flat_map(each).collect();
    cases.extend([1000, MOST_POINTS].map(family));
    cases
}

#[cfg(test)]
mod tests {
    use super::{around_the_need, large, Cleaner, Kind};
    use crate::contours::answer;
    use std::collections::BTreeSet;

    /// The replies to the cleanings by one cleaner.
    fn replies(cases: Vec<super::Case>, asked: Cleaner) -> BTreeSet<String> {
        let by_it = |case: &super::Case| match case.kind {
            Kind::Cleaning { cleaner, .. } => cleaner == asked,
            _ => false,
        };
        let reply = |case| answer(&case).split(' ').next().unwrap().to_string();
        cases.into_iter().filter(by_it).map(reply).collect()
    }

    #[test]
    fn every_reply_is_met_with_both_cleaners() {
        for cleaner in Cleaner::BOTH {
            let short = replies(around_the_need(), cleaner);
            let large = replies(large(), cleaner);
            assert_eq!(Vec::from_iter(short), ["0", "1", "3", "4", "5", "7"]);
            assert_eq!(Vec::from_iter(large), ["0", "1", "2", "3", "4", "5", "7"]);
        }
    }
}
