//! The walk over the surviving positions of a ring, as document 01 writes it, with every visit counted as document 02 asks
//! for: those that decide, and those that step over a marked position.

use crate::grid::Point;

/// Which vertex is to go.
#[derive(Clone, Copy, Debug, PartialEq, Eq)]
pub enum Rule {
    /// One whose two edges have cross 0.
    Collinear,
    /// One equal to either neighbour, or with cross 0 and dot below 0.
    Spike,
}

/// How a walk ended: with the positions that survive, in rising order, or none where the contour collapsed.
#[derive(Clone, Debug, PartialEq, Eq)]
pub struct Walked {
    pub survivors: Option<Vec<usize>>,
    pub decisions: usize,
    pub turns: usize,
}

pub fn walk(rule: Rule, contour: &[Point]) -> Walked {
    let mut ring = Ring::new(contour.len());
    let (mut decisions, mut turns) = (0, 0);
    let ended = |survivors, decisions, turns| Walked {
        survivors,
        decisions,
        turns,
    };
    if contour.len() < 3 {
        return ended(None, 0, 0);
    }
    let mut position = 0;
    while ring.unmarked > 0 {
        turns += 1;
        if ring.marks[position] == Mark::Marked {
            position = ring.next[position];
            continue;
        }
        decisions += 1;
        let [before, after] = [ring.prev[position], ring.next[position]];
        if !rule.goes([before, position, after].map(|at| contour[at])) {
            ring.put(position, Mark::Marked);
            position = after;
        } else if ring.surviving == 3 {
            return ended(None, decisions, turns);
        } else {
            ring.remove(position);
            position = before;
            for at in [before, ring.next[before], ring.prev[before]] {
                ring.put(at, Mark::Unmarked);
            }
        }
    }
    ended(Some(ring.survivors()), decisions, turns)
}

impl Rule {
    fn goes(self, [before, vertex, after]: [Point; 3]) -> bool {
        let [to, from] = [edge(before, vertex), edge(vertex, after)];
        let straight = to[0] * from[1] == to[1] * from[0];
        match self {
            Rule::Collinear => straight,
            Rule::Spike => {
                let back = to[0] * from[0] + to[1] * from[1] < 0;
                vertex == before || vertex == after || straight && back
            }
        }
    }
}

/// How far the way goes in x and in y, in numbers so wide that every product of them is exact.
fn edge(a: Point, b: Point) -> [i128; 2] {
    [0, 1].map(|i| i128::from(b[i]) - i128::from(a[i]))
}

#[derive(Clone, Copy, PartialEq, Eq)]
enum Mark {
    Unmarked,
    Marked,
    Removed,
}

/// The positions, each with its mark and its neighbours among those that survive.
struct Ring {
    marks: Vec<Mark>,
    next: Vec<usize>,
    prev: Vec<usize>,
    surviving: usize,
    unmarked: usize,
}

impl Ring {
    fn new(n: usize) -> Ring {
        Ring {
            marks: vec![Mark::Unmarked; n],
            next: (0..n).map(|i| (i + 1) % n).collect(),
            prev: (0..n).map(|i| (i + n - 1) % n).collect(),
            surviving: n,
            unmarked: n,
        }
    }

    fn put(&mut self, position: usize, mark: Mark) {
        let old = std::mem::replace(&mut self.marks[position], mark);
        self.unmarked -= usize::from(old == Mark::Unmarked);
        self.unmarked += usize::from(mark == Mark::Unmarked);
    }

    fn remove(&mut self, position: usize) {
        let [before, after] = [self.prev[position], self.next[position]];
        self.next[before] = after;
        self.prev[after] = before;
        self.put(position, Mark::Removed);
        self.surviving -= 1;
    }

    fn survivors(&self) -> Vec<usize> {
        let survives = |&at: &usize| self.marks[at] != Mark::Removed;
        (0..self.marks.len()).filter(survives).collect()
    }
}

#[cfg(test)]
mod tests {
    use super::Rule::{self, Collinear, Spike};
    use super::{walk, Point, Walked};

    fn kept(rule: Rule, contour: &[Point], survivors: &[usize], decisions: usize, turns: usize) {
        let survivors = Some(survivors.to_vec());
        let expected = Walked {
            survivors,
            decisions,
            turns,
        };
        assert_eq!(walk(rule, contour), expected, "{contour:?}");
    }

    #[test]
    fn the_smallest_contours_with_an_idle_turn() {
        let contour = [[0, 0], [0, 1], [1, 0], [1, 1], [1, 1]];
        kept(Collinear, &contour, &[0, 1, 2, 4], 7, 8);
        let contour = [[0, 0], [0, 1], [0, 2], [1, 0], [1, 0]];
        kept(Spike, &contour, &[0, 1, 2, 4], 7, 8);
    }

    #[test]
    fn with_nothing_to_remove_there_are_as_many_turns_as_points() {
        let square = [[0, 0], [4, 0], [4, 4], [0, 4]];
        for rule in [Collinear, Spike] {
            kept(rule, &square, &[0, 1, 2, 3], 4, 4);
        }
    }

    #[test]
    fn a_collapse_has_no_idle_turn() {
        for (contour, turns) in [
            (&[][..], 0),
            (&[[0, 0], [4, 0]], 0),
            (&[[0, 0], [1, 0], [2, 0]], 1),
            (&[[0, 0], [1, 1], [2, 2], [3, 3], [4, 4]], 3),
        ] {
            let walked = walk(Collinear, contour);
            let expected = Walked {
                survivors: None,
                decisions: turns,
                turns,
            };
            assert_eq!(walked, expected, "{contour:?}");
        }
    }
}
