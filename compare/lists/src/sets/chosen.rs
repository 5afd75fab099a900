//! Cases of chosen sets, and rows as long as needed, longer and shorter.

use super::case::{Case, Kind};
use super::flat::{Record, Set, MOST_RECORDS};
use super::packing::{Call, Form, Packed};
use super::rows::{Lengths, Offsets, OFFSETS};
use super::small::set;
use crate::ends::{self, BETWEEN, FAR, NEAR, PAST};
use crate::line::Row;
use crate::point::{LIMIT, MOST_POINTS, OFF_GRID};

/// Every question about each set.
pub fn asked(sets: &[Set]) -> Vec<Case> {
    let case = |set: &Set| Case {
        kind: Kind::Asked,
        of: set.clone(),
    };
    sets.iter().map(case).collect()
}

/// One packing of the set; in an addition these numbers and ranges are added to it.
pub fn added(form: Form, lent: Lengths, set: &Set, more: &[i32], ranges: &[Record]) -> Case {
    let mut set = set.clone();
    set.points.numbers.extend(more);
    Case {
        kind: Kind::Packing(Call {
            form,
            lent,
            more: more.len(),
            ranges: ranges.to_vec(),
        }),
        of: set,
    }
}

/// What is added to a set, its numbers and its ranges: of no contour, a point, a
/// triangle and an empty contour, off the grid, of an odd count, loose, short.
const ADDITIONS: [(&[i32], &[Record]); 7] = [
    (&[], &[]),
    (&[6, 7], &[[0, 1]]),
    (&[0, 0, 4, 0, 0, 4], &[[0, 3], [3, 3]]),
    (&[LIMIT + 1, 7], &[[0, 1]]),
    (&[6, 7, 8], &[[0, 1]]),
    (&[6, 7], &[]),
    (&[6, 7, 8, 9], &[[0, 1]]),
];

/// A packing of the set with the addition of that number, where the form adds.
pub fn packed(form: Form, offsets: Offsets, set: &Set, addition: usize) -> Case {
    let (more, ranges) = match form.packed {
        Packed::OneMore => ADDITIONS[addition % ADDITIONS.len()],
        _ => (&[][..], &[][..]),
    };
    let lent = need(form, set, more, ranges).beside(offsets, Lengths::LONGEST);
    added(form, lent, set, more, ranges)
}

/// Exactly as long as what is to be written.
pub fn need(form: Form, set: &Set, more: &[i32], ranges: &[Record]) -> Lengths {
    let (records, groups) = match (form.packed, form.with_shapes) {
        (Packed::Contour, _) => (1, 1),
        (Packed::Shape, _) => (set.contours.len(), 1),
        (Packed::Shapes, _) => (set.contours.len(), set.shapes.len()),
        (Packed::OneMore, false) => (set.contours.len() + 1, 0),
        (Packed::OneMore, true) => (set.contours.len() + ranges.len(), set.shapes.len() + 1),
    };
    Lengths {
        out: set.points.all().len() + more.len(),
        records,
        groups,
    }
}

/// Each set in so many forms, which come in turn, with rows exactly as long as needed
/// half the time.
pub fn packed_in_turn(sets: &[Set], forms: usize) -> Vec<Case> {
    let mut cases = vec![];
    let mut turn = 0;
    for set in sets {
        for _ in 0..forms {
            let form = Form::all()[turn % Form::COUNT];
            let offsets = match turn / Form::COUNT % 2 {
                0 => [0, 0, 0],
                _ => OFFSETS[turn / Form::COUNT % OFFSETS.len()],
            };
            cases.push(packed(form, offsets, set, turn / Form::COUNT));
            turn += 1;
        }
        // So that no form falls on the same sets over and over.
        turn += sets.len() % 2;
    }
    cases
}

/// Chosen sets in every form, with every choice of rows and with none.
pub fn rows() -> Vec<Case> {
    let sets = [
        set(&[]),
        set(&[vec![]]),
        set(&[vec![0]]),
        set(&[vec![3]]),
        set(&[vec![], vec![4, 3], vec![3]]),
    ];
    let mut cases = vec![];
    for set in &sets {
        for form in Form::all() {
            for (addition, offsets) in OFFSETS.into_iter().enumerate() {
                cases.push(packed(form, offsets, set, addition % 3));
            }
            cases.push(packed(form, [isize::MIN; 3], set, 1));
            cases.push(packed(form, [isize::MAX; 3], set, 2));
        }
    }
    cases
}

/// What every form makes of a set with a number off the grid.
pub fn off_in_one_place() -> Vec<Case> {
    let sets = off_grid(&set(&[vec![3, 2], vec![], vec![1]]));
    [asked(&sets), packed_in_turn(&sets, 3)].concat()
}

/// Sets of one contour with a number at an end of the grid or past it, in each place in turn; and additions of such a
/// contour.
pub fn at_the_ends() -> Vec<Case> {
    let on = one_contour(&ends::rows(&[LIMIT, -LIMIT], &NEAR, &[2, 4, 6, 8]));
    let past = one_contour(&ends::rows(&PAST, &NEAR, &[1, 2, 3, 4, 5, 6, 7, 8, 9]));
    let sets = [on, past].concat();
    [asked(&sets), packed_in_turn(&sets, 1), added_at_the_ends()].concat()
}

/// Each row as the points of one contour in one shape.
pub fn one_contour(rows: &[Vec<i32>]) -> Vec<Set> {
    let set = |row: &Vec<i32>| Set {
        contours: vec![[0, row.len() / 2]],
        shapes: vec![[0, 1]],
        points: Row::wound(row, 1),
    };
    rows.iter().map(set).collect()
}

/// A row at the ends of the grid and past them is added to a set that is itself at the ends.
fn added_at_the_ends() -> Vec<Case> {
    let set = &one_contour(&[FAR.to_vec()])[0];
    let mut cases = vec![];
    for form in [3, 7].into_iter().filter_map(Form::numbered) {
        for more in ends::rows(&[LIMIT, PAST[0], PAST[1]], &FAR, &[2, 4, 8]) {
            let ranges = [[0, more.len() / 2]];
            let lent = need(form, set, &more, &ranges);
            cases.push(added(form, lent, set, &more, &ranges));
        }
    }
    cases
}

/// What every form makes of a set that is on the grid and off the narrow one.
pub fn off_the_narrow_grid() -> Vec<Case> {
    let sets = wide();
    [asked(&sets), packed_in_turn(&sets, 4)].concat()
}

/// Sets with a number of the grid that is off the narrow one, in each place in turn, and with no other.
pub fn wide() -> Vec<Set> {
    let mut sets = vec![];
    let sound = set(&[vec![3, 2], vec![1]]);
    for place in 0..sound.points.numbers.len() {
        let mut set = sound.clone();
        set.points.numbers[place] = BETWEEN[place % BETWEEN.len()];
        sets.push(set);
    }
    sets.extend(one_contour(&[FAR.to_vec(), BETWEEN.to_vec()]));
    sets
}

/// The set of three contours with one number off the grid, in each place in turn; that with
/// ranges that are unsound as well; and that with an odd count too.
pub fn off_grid(sound: &Set) -> Vec<Set> {
    let mut sets = vec![];
    for place in 0..sound.points.numbers.len() {
        let mut set = sound.clone();
        set.points.numbers[place] = OFF_GRID[place % OFF_GRID.len()];
        sets.push(set.clone());
        set.contours[place % 3][1] += 1;
        sets.push(set.clone());
        set.points.numbers.push(1);
        sets.push(set);
    }
    sets
}

/// As many contours and shapes as a case can give, with points and without.
pub fn many_records() -> Vec<Case> {
    let sets = [
        set(&[vec![0; MOST_RECORDS]]),
        set(&[vec![1; MOST_RECORDS]]),
        set(&vec![vec![]; MOST_RECORDS]),
        set(&vec![vec![0]; MOST_RECORDS]),
        set(&vec![vec![3]; MOST_RECORDS]),
    ];
    [asked(&sets), packed_in_turn(&sets, Form::COUNT)].concat()
}

/// Sets of the most points, of one less and of one more.
pub fn many_points() -> Vec<Case> {
    let wound = |numbers: &[i32], times: usize| Set {
        contours: vec![[0, numbers.len() * times / 2]],
        shapes: vec![[0, 1]],
        points: Row::wound(numbers, times),
    };
    let sets = [
        wound(&[7, 8], MOST_POINTS - 1),
        wound(&[7, 8], MOST_POINTS),
        wound(&[7, 8], MOST_POINTS + 1),
        wound(&[LIMIT + 1, 8], MOST_POINTS),
        wound(&[LIMIT + 1, 8], MOST_POINTS + 1),
        wound(&[5], 2 * MOST_POINTS + 1),
    ];
    let mut cases = asked(&sets);
    for set in &sets {
        cases.extend(
            Form::all()
                .into_iter()
                .map(|form| packed(form, [0; 3], set, 0)),
        );
    }
    cases.extend(additions_at_the_limit());
    cases
}

/// A point is added to a set of the most points, of one less, and of one less that is
/// unsound; and so many to a set of none.
fn additions_at_the_limit() -> Vec<Case> {
    let mut cases = vec![];
    for form in [3, 7].into_iter().filter_map(Form::numbered) {
        for (points, more, end) in [
            (MOST_POINTS + 1, 1, MOST_POINTS),
            (MOST_POINTS, 1, MOST_POINTS - 1),
            (MOST_POINTS, 1, MOST_POINTS),
            (MOST_POINTS, MOST_POINTS, 0),
            (MOST_POINTS + 1, MOST_POINTS + 1, 0),
        ] {
            cases.push(Case {
                kind: Kind::Packing(Call {
                    form,
                    lent: Lengths::LONGEST,
                    more: 2 * more,
                    ranges: vec![[0, more]],
                }),
                of: Set {
                    contours: vec![[0, end]],
                    shapes: vec![[0, 1]],
                    points: Row::wound(&[7, 8], points),
                },
            });
        }
    }
    cases
}
