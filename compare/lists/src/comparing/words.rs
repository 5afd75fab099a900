//! Contours of few different points, so that they repeat and are each other from many starts on.

use super::case::{beside, Case};
use crate::point::Point;
use crate::sets::small::rows_up_to;

/// The points that words are made of.
const LETTERS: [Point; 3] = [[0, 0], [0, 1], [-1, 0]];

/// All words of up to so many letters, of the first so many.
pub fn all(most: usize, letters: usize) -> Vec<Vec<Point>> {
    rows_up_to(most, &LETTERS[..letters])
}

/// Each of these words beside each, in one case for each step between the two.
pub fn all_pairs(most: usize, letters: usize) -> Vec<Case> {
    let words = all(most, letters);
    let pairs = |step| {
        let mut others = words.clone();
        others.rotate_left(step);
        beside(&words, &others, 0)
    };
    (0..words.len()).map(pairs).collect()
}

/// Words that repeat, each beside itself from every start on, and beside that with its last point changed.
pub fn repeated() -> Vec<Case> {
    let mut cases = vec![];
    for word in all(3, 2).into_iter().filter(|word| !word.is_empty()) {
        for times in [2, 3, 4, 7] {
            let whole = word.repeat(times);
            let count = whole.len();
            let firsts = vec![whole.clone(); count];
            let started = |start| [&whole[start..], &whole[..start]].concat();
            let mut seconds: Vec<Vec<Point>> = (0..count).map(started).collect();
            cases.push(beside(&firsts, &seconds, 1));
            for second in &mut seconds {
                second[count - 1] = LETTERS[2];
            }
            cases.push(beside(&firsts, &seconds, 0));
        }
    }
    cases
}

/// Long contours of equal points but one, and of equal points but two: the worst for whoever tries each start.
pub fn all_but_one() -> Vec<Case> {
    let mut cases = vec![];
    for count in [3, 20, 101] {
        let but = |places: &[usize]| {
            let mut contour = vec![LETTERS[0]; count];
            for &place in places {
                contour[place] = LETTERS[1];
            }
            contour
        };
        let firsts = vec![but(&[0]), but(&[count - 1]), but(&[1]), but(&[0, 1])];
        let seconds = vec![but(&[count / 2]), but(&[0]), but(&[1]), but(&[0, 2])];
        cases.push(beside(&firsts, &seconds, 0));
        cases.push(beside(&seconds, &firsts, 0));
    }
    cases
}

#[cfg(test)]
mod tests {
    use super::{all, all_pairs};
    use crate::comparing::answers::sets;
    use std::collections::HashSet;

    #[test]
    fn every_word_stands_beside_every_word() {
        let words = all(3, 2);
        let mut met = HashSet::new();
        for case in all_pairs(3, 2) {
            let (first, second) = sets(&case);
            let word = |set: &super::super::case::Flat, number: usize| {
                let [start, end] = set.ranges[number];
                set.points[2 * start..2 * end].to_vec()
            };
            for number in 0..words.len() {
                met.insert((word(&first, number), word(&second, number)));
            }
        }
        assert_eq!(met.len(), words.len() * words.len());
    }
}
