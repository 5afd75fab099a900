//! Drawings without a fault, brought into rows as long as needed, longer and shorter.

use super::case::{Case, Lengths, LONGEST_IN};
use crate::rng::Rng;
use requests::drawing::{Drawing, CLOSE, LINE, MOVE};
use requests::exact::millimetres;

pub fn import(lent: Lengths, drawing: &Drawing) -> Case {
    let drawing = drawing.clone();
    Case::Import { lent, drawing }
}

/// The rows of numbers and records that a drawing needs.
pub fn need(drawing: &Drawing) -> Lengths {
    [drawing.brought(), drawing.begun()]
}

/// Rows longer or shorter by the offsets, but none beyond the longest.
pub fn beside(need: Lengths, offsets: [isize; 2], longest: Lengths) -> Lengths {
    let beside = |row: usize| {
        need[row]
            .saturating_add_signed(offsets[row])
            .min(longest[row])
    };
    [beside(0), beside(1)]
}

/// With rows exactly as long as needed.
pub fn exact(drawing: &Drawing) -> Case {
    import(need(drawing), drawing)
}

pub fn longer(drawing: &Drawing) -> Case {
    import(beside(need(drawing), [3, 2], LONGEST_IN), drawing)
}

/// The drawing of these kinds, no two of its coordinates the same.
pub fn of_kinds(kinds: &[u8]) -> Drawing {
    let mut drawing = Drawing {
        kinds: kinds.to_vec(),
        floats: vec![],
    };
    let coordinate = |number| millimetres(700 * number as i32 - 1300);
    drawing.floats = (0..drawing.brought()).map(coordinate).collect();
    drawing
}

/// All rows of up to `most` of the kinds.
pub fn all_kinds(most: u32, kinds: &[u8]) -> Vec<Vec<u8>> {
    let mut all = vec![];
    for count in 0..=most {
        for number in 0..kinds.len().pow(count) {
            let kind = |place| kinds[number / kinds.len().pow(place) % kinds.len()];
            all.push((0..count).map(kind).collect());
        }
    }
    all
}

/// Every row of up to six kinds without a fault.
pub fn kinds() -> Vec<Case> {
    let all = all_kinds(6, &[MOVE, LINE, CLOSE]).into_iter();
    let drawings = all.map(|kinds| of_kinds(&kinds));
    let sound = drawings.filter(|drawing| drawing.contours().is_ok());
    sound.map(|drawing| exact(&drawing)).collect()
}

/// Any drawing of up to so many commands that has no fault in its kinds.
pub fn any_kinds(most: usize, rng: &mut Rng) -> Vec<u8> {
    let mut kinds = vec![];
    let mut open = false;
    for _ in 0..rng.below(most + 1) {
        let kind = if open {
            rng.pick(&[MOVE, LINE, LINE, LINE, LINE, CLOSE])
        } else {
            MOVE
        };
        kinds.push(kind);
        open = kind != CLOSE;
    }
    kinds
}

/// By how much rows differ from the need.
pub const OFFSETS: [[isize; 2]; 10] = [
    [0, 0],
    [-1, 0],
    [0, -1],
    [-2, 0],
    [1, 2],
    [-1, 5],
    [5, -1],
    [-1, -1],
    [isize::MIN, isize::MIN],
    [isize::MAX, isize::MAX],
];

/// Chosen drawings with every choice of rows.
pub fn rows() -> Vec<Case> {
    let mut cases = vec![];
    for kinds in [
        &[][..],
        &[MOVE],
        &[MOVE, CLOSE],
        &[MOVE, LINE, LINE, CLOSE],
        &[MOVE, MOVE, MOVE],
        &[MOVE, LINE, LINE, CLOSE, MOVE, LINE, CLOSE, MOVE, MOVE, LINE],
    ] {
        let drawing = of_kinds(kinds);
        let lent = |offsets| beside(need(&drawing), offsets, LONGEST_IN);
        cases.extend(OFFSETS.map(|offsets| import(lent(offsets), &drawing)));
    }
    cases
}

/// Drawings of more commands, of every form.
pub fn random() -> Vec<Case> {
    let rng = &mut Rng::new(702);
    let mut cases = vec![];
    for turn in 0..150 {
        let drawing = of_kinds(&any_kinds(60, rng));
        let offsets = OFFSETS[turn % OFFSETS.len()];
        cases.push(import(
            beside(need(&drawing), offsets, LONGEST_IN),
            &drawing,
        ));
    }
    cases
}
