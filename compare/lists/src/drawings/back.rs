//! Sets on the way back, sound and not, into rows as long as needed, longer and shorter.

use super::case::{Case, Lengths, LONGEST_OUT};
use super::sound::{beside, OFFSETS};
use crate::line::Row;
use crate::point::{LIMIT, NARROW, OFF_NARROW};
use crate::rng::Rng;
use crate::sets::chosen::wide;
use crate::sets::flat::{Record, Set};
use crate::sets::random;
use crate::sets::ranges::contour_ranges;
use crate::sets::small::{rows_up_to, set};

/// The set's shapes play no part.
pub fn export(lent: Lengths, set: &Set) -> Case {
    Case::Export {
        lent,
        contours: set.contours.clone(),
        points: set.points.clone(),
    }
}

/// The rows of kinds and floats that a set needs; whatever its ranges say, none is longer
/// than a sound set of as many points and contours could need.
pub fn need(set: &Set) -> Lengths {
    let numbers = set.points.numbers.len() * set.points.times;
    let filled = |[start, end]: &&Record| start < end;
    [
        numbers / 2 + set.contours.iter().filter(filled).count(),
        numbers,
    ]
}

pub fn around(set: &Set, offsets: [isize; 2]) -> Case {
    export(beside(need(set), offsets, LONGEST_OUT), set)
}

/// Each set with exactly the room it needs, and by turns with another.
fn in_turn(sets: &[Set]) -> Vec<Case> {
    let turns = OFFSETS[1..].iter().cycle();
    let two = |(set, &offsets): (&Set, &[isize; 2])| [around(set, [0, 0]), around(set, offsets)];
    sets.iter().zip(turns).flat_map(two).collect()
}

/// All sets of up to four contours of no point, one, two or three.
pub fn small() -> Vec<Case> {
    let sizes = rows_up_to(4, &[0, 1, 2, 3]);
    let sets: Vec<Set> = sizes.into_iter().map(|sizes| set(&[sizes])).collect();
    in_turn(&sets)
}

/// One contour of every length up to fifty, alone and behind another.
pub fn lengths() -> Vec<Case> {
    let one = |length| {
        [
            around(&set(&[vec![length]]), [0, 0]),
            around(&set(&[vec![5, 0, length]]), [1, 1]),
        ]
    };
    (0..=50).flat_map(one).collect()
}

/// Coordinates around zero, around each power of two and at the ends of the narrow grid.
pub fn coordinates() -> Vec<Case> {
    let mut chosen = vec![0, 1, -1, NARROW, NARROW - 1, -NARROW, 1 - NARROW];
    for power in 1..29 {
        let power = 1 << power;
        chosen.extend([power - 1, power, power + 1, -power - 1, -power, 1 - power]);
    }
    let contour = |numbers: &[i32]| Set {
        contours: vec![[0, numbers.len() / 2]],
        shapes: vec![],
        points: Row::wound(numbers, 1),
    };
    let sets: Vec<Set> = chosen.chunks_exact(2).map(contour).collect();
    sets.iter().map(|set| around(set, [2, 3])).collect()
}

/// Ranges of every kind over two points.
pub fn ranges() -> Vec<Case> {
    contour_ranges()
        .iter()
        .map(|set| around(set, [1, 1]))
        .collect()
}

/// A set of which one number is off the grid, in each place in turn: sound, unsound, and of
/// an odd count.
pub fn off_in_one_place() -> Vec<Case> {
    let mut cases = vec![];
    let sound = set(&[vec![3, 0, 2]]);
    for place in 0..sound.points.numbers.len() {
        for off in OFF_NARROW {
            let mut set = sound.clone();
            set.points.numbers[place] = off;
            cases.push(around(&set, [0, 0]));
            set.contours[place % 3][1] += 1;
            cases.push(around(&set, [-1, 0]));
            set.points.numbers.push(1);
            cases.push(around(&set, [0, 0]));
        }
    }
    cases
}

/// Sets that are on the grid and off the narrow one.
pub fn off_the_narrow_grid() -> Vec<Case> {
    in_turn(&wide())
}

/// Chosen sets with every choice of rows; points without ranges among them.
pub fn rows() -> Vec<Case> {
    let mut sets = [&[][..], &[0], &[1], &[0, 3, 0], &[3, 2, 0, 1]]
        .map(|sizes: &[usize]| set(&[sizes.to_vec()]))
        .to_vec();
    sets.push(Set {
        points: Row::wound(&[5, 6], 1),
        ..Set::default()
    });
    let every = |set: &Set| OFFSETS.map(|offsets| around(set, offsets));
    sets.iter().flat_map(every).collect()
}

/// Random sets, sound and with damages.
pub fn random() -> Vec<Case> {
    let rng = &mut Rng::new(704);
    (0..300).map(|_| any_export(rng)).collect()
}

/// Any set, one in three with damages and one in eight from all over the grid, into rows around its need.
pub fn any_export(rng: &mut Rng) -> Case {
    let end = if rng.below(8) == 0 { LIMIT } else { NARROW };
    let sound = random::set(end, rng);
    let set = match rng.below(3) {
        0 => random::spoil(sound, &OFF_NARROW, rng),
        _ => sound,
    };
    let offsets = [(); 2].map(|()| rng.pick(&[-1, 0, 0, 0, 0, 1, 3]));
    around(&set, offsets)
}
