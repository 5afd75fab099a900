//! Contours to be refused: for an odd count, a number off the grid, or both.

use crate::contours::asked;
use crate::contours::case::{Case, Kind};
use crate::point::{Point, LIMIT, OFF_GRID};
use crate::rng::Rng;
use crate::shapes::scattered;

pub fn cases() -> Vec<Case> {
    let rng = &mut Rng::new(101);
    let mut cases: Vec<Case> = (0..300).map(|_| damaged(rng)).collect();
    cases.extend([0, 1, 100, 197, 198, 199].map(|place| off_in_one_place(place, rng)));
    cases
}

/// A short contour with one to three damages; two may undo each other.
pub fn damaged(rng: &mut Rng) -> Case {
    let contour = scattered(rng.below(12), rng.pick(&[3, LIMIT]), rng);
    let mut asked = asked::about(&contour, rng);
    let mut numbers = contour.concat();
    for _ in 0..rng.pick(&[1, 1, 2, 3]) {
        damage(&mut asked, &mut numbers, rng);
    }
    Case::new(Kind::Contour { asked }, &numbers)
}

fn damage(asked: &mut Point, numbers: &mut Vec<i32>, rng: &mut Rng) {
    match rng.below(3) {
        0 => numbers.push(0),
        1 => asked[rng.below(2)] = rng.pick(&OFF_GRID),
        _ => {
            let place = rng.below(numbers.len());
            if let Some(number) = numbers.get_mut(place) {
                *number = rng.pick(&OFF_GRID);
            }
        }
    }
}

/// A row of two hundred numbers of which one is off the grid.
fn off_in_one_place(place: usize, rng: &mut Rng) -> Case {
    let mut case = Case::contour([0, 0], &scattered(100, 9, rng));
    case.of.numbers[place] = rng.pick(&OFF_GRID);
    case
}
