//! Cases of given sets, with rows as long as needed, longer and shorter.

use super::case::{Case, Form, Kind, Lengths, MOST_SCRATCH};
use crate::contours::asked;
use crate::point::{Point, OFF_GRID};
use crate::rng::Rng;
use crate::scratch;
use crate::sets::flat::Set;
use crate::sets::rows;
use requests::reply::on_grid;

/// By how much the rows differ from the need: next, prev, mark, and the numbers, contour
/// records and shape records of the output.
type Offsets = [isize; 6];

const ENOUGH: [Offsets; 5] = [
    [0, 0, 0, 0, 0, 0],
    [1, 2, 3, 5, 2, 1],
    [0, 0, 0, 1, 0, 0],
    [0, 4, 0, 2, 0, 3],
    [9, 0, 1, 0, 1, 0],
];

/// Rows that are too short come one by one, then together: 4 is due before 5.
const SHORT: [Offsets; 14] = [
    [-1, 0, 0, 0, 0, 0],
    [0, -1, 0, 0, 0, 0],
    [0, 0, -1, 0, 0, 0],
    [0, 0, 0, -1, 0, 0],
    [0, 0, 0, 0, -1, 0],
    [0, 0, 0, 0, 0, -1],
    [0, 0, 0, -2, 0, 0],
    [9, 9, 9, -1, 9, 9],
    [9, 9, 9, 9, -1, 9],
    [9, 9, 9, 9, 9, -1],
    [9, 9, -1, 9, 9, 9],
    [-1, 0, 0, -1, 0, 0],
    [0, -1, 0, 0, -1, 0],
    [0, 0, -1, 0, 0, -1],
];

/// One cleaning with rows beside the need, none shorter than nothing or beyond the
/// longest.
fn cleaning(form: Form, set: &Set, [next, prev, mark, out, records, groups]: Offsets) -> Case {
    let points = set.points.all().len() / 2;
    let length = |offset| points.saturating_add_signed(offset).min(MOST_SCRATCH);
    let need = rows::Lengths {
        out: 2 * points,
        records: set.contours.len(),
        groups: set.shapes.len(),
    };
    let lent = Lengths {
        scratch: scratch::Lengths {
            next: length(next),
            prev: length(prev),
            mark: length(mark),
        },
        rows: need.beside([out, records, groups], rows::Lengths::LONGEST),
    };
    Case {
        kind: Kind::Cleaning { form, lent },
        of: set.clone(),
    }
}

pub fn asked(asked: Point, set: &Set) -> Case {
    Case {
        kind: Kind::Asked { asked },
        of: set.clone(),
    }
}

/// The questions about each set, of which one in sixteen is about a point off the grid,
/// and its cleaning in every form. One cleaning in four has a row that is too short.
pub fn asked_and_cleaned(sets: &[Set], seed: u64) -> Vec<Case> {
    let rng = &mut Rng::new(seed);
    let mut cases = vec![];
    for set in sets {
        cases.push(asked(point_for(set, rng), set));
        for form in Form::ALL {
            cases.push(in_turn(form, set, rng));
        }
    }
    cases
}

/// The questions about each set, and its cleaning in one form.
pub fn asked_and_cleaned_once(sets: &[Set], forms: &[Form], seed: u64) -> Vec<Case> {
    let rng = &mut Rng::new(seed);
    let mut cases = vec![];
    for (set, &form) in sets.iter().zip(forms.iter().cycle()) {
        cases.extend([asked(point_for(set, rng), set), in_turn(form, set, rng)]);
    }
    cases
}

/// A cleaning of the set in one form.
pub fn in_turn(form: Form, set: &Set, rng: &mut Rng) -> Case {
    let offsets = match rng.below(4) {
        0 => rng.pick(&SHORT),
        _ => rng.pick(&ENOUGH),
    };
    cleaning(form, set, offsets)
}

/// Each set in every form, with every choice of rows, with none and with the longest.
pub fn around_the_need(sets: &[Set]) -> Vec<Case> {
    let mut cases = vec![];
    for set in sets {
        for form in Form::ALL {
            let choices = ENOUGH.into_iter().chain(SHORT);
            let all = choices.chain([[isize::MIN; 6], [isize::MAX; 6]]);
            cases.extend(all.map(|offsets| cleaning(form, set, offsets)));
        }
    }
    cases
}

/// A point with something to tell about the set.
pub fn point_for(set: &Set, rng: &mut Rng) -> Point {
    let points = set.points.numbers.chunks_exact(2).map(|p| [p[0], p[1]]);
    let points = points.filter(|point: &Point| on_grid(point).is_ok());
    let mut point = asked::about(&points.collect::<Vec<Point>>(), rng);
    if rng.below(16) == 0 {
        point[rng.below(2)] = rng.pick(&OFF_GRID);
    }
    point
}
