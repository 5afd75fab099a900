//! The two cleaners and their verdicts, by the Rust original.

use crate::counted::{crosses_of, COUNTED};
use crate::line::{next_number, Words};
use crate::point::Point;
use i_float::int::point::IntPoint;
use i_shape::int::despike::DeSpikeContour;
use i_shape::int::simple::SimpleContour;
use requests::walk::{walk, Rule};

pub type Contour = Vec<IntPoint<i32>>;

/// Which vertices are removed.
#[derive(Clone, Copy, Debug, PartialEq, Eq)]
pub enum Cleaner {
    /// Those whose two edges have cross 0.
    Simplified,
    /// Those equal to a neighbour, and spikes.
    Despiked,
}

/// How a walk ended: with the points kept, or none where the contour collapsed.
#[derive(Clone, Debug, PartialEq, Eq)]
pub struct Walked {
    pub kept: Option<Contour>,
    pub decisions: usize,
    pub turns: usize,
}

impl Cleaner {
    pub const BOTH: [Cleaner; 2] = [Cleaner::Simplified, Cleaner::Despiked];

    /// The number that the list has for the cleaner.
    pub fn number(self) -> usize {
        self as usize
    }

    pub fn read(words: &mut Words) -> Result<Cleaner, String> {
        let cleaner = Cleaner::BOTH.get(next_number::<usize>(words)?);
        Ok(*cleaner.ok_or("no cleaner has that number")?)
    }

    /// Whether the contour passes the cleaner's verdict.
    pub fn passes(self, contour: &Contour) -> bool {
        match self {
            Cleaner::Simplified => contour.is_simple(),
            Cleaner::Despiked => contour.has_no_spikes(),
        }
    }

    /// The walk. It asks for one cross product in each decision and for no other, so
    /// their count is the number of decisions. Its turns are those of the written walk,
    /// which must keep the same points after as many decisions.
    pub fn walk(self, contour: &Contour) -> Walked {
        let (kept, decisions) = crosses_of(|| match self {
            Cleaner::Simplified => contour.simplified(),
            Cleaner::Despiked => contour.despiked_contour(),
        });
        let written = walk(self.rule(), &points(contour));
        let survivors = written
            .survivors
            .map(|at| at.iter().map(|&i| contour[i]).collect());
        assert_eq!(survivors, kept, "{self:?} of {contour:?}");
        assert!(
            !COUNTED || written.decisions == decisions,
            "{self:?} of {contour:?}"
        );
        Walked {
            kept,
            decisions,
            turns: written.turns,
        }
    }

    fn rule(self) -> Rule {
        match self {
            Cleaner::Simplified => Rule::Collinear,
            Cleaner::Despiked => Rule::Spike,
        }
    }
}

fn points(contour: &Contour) -> Vec<Point> {
    contour.iter().map(|p| [p.x, p.y]).collect()
}

/// The points of a row of coordinates.
pub fn contour(row: &[i32]) -> Contour {
    let points = row.chunks_exact(2);
    points.map(|p| IntPoint::new(p[0], p[1])).collect()
}

/// The coordinates of the points, in a row.
pub fn row(contour: &Contour) -> Vec<i32> {
    contour.iter().flat_map(|p| [p.x, p.y]).collect()
}

#[cfg(test)]
mod tests {
    use super::Cleaner::{self, Despiked, Simplified};
    use super::{contour, row};
    use crate::contours::unclean;
    use crate::point::Point;

    fn walked(cleaner: Cleaner, points: &[Point]) -> (Option<Vec<i32>>, usize) {
        let walked = cleaner.walk(&contour(&points.concat()));
        (walked.kept.as_ref().map(row), walked.decisions)
    }

    /// The points at the positions, in a row.
    fn at(points: &[Point], positions: &[usize]) -> Option<Vec<i32>> {
        Some(positions.iter().flat_map(|&i| points[i]).collect())
    }

    #[test]
    fn the_decisions_are_those_that_document_01_works_out() {
        const STRAIGHT: &[Point] = &[[0, 0], [2, 0], [4, 0], [4, 4], [0, 4]];
        const SPIKE: &[Point] = &[[0, 0], [4, 0], [4, 4], [4, 8], [4, 4], [0, 4]];
        const TWICE: &[Point] = &[[0, 0], [0, 0], [4, 0], [0, 4]];
        const BOW: &[Point] = &[[0, 0], [4, 4], [4, 0], [0, 4]];
        const ALL: &[usize] = &[0, 1, 2, 3, 4];
        for (cleaner, points, positions, decisions) in [
            (Simplified, STRAIGHT, &[0, 2, 3, 4][..], 6),
            (Despiked, STRAIGHT, ALL, 5),
            (Simplified, SPIKE, &[0, 1, 4, 5], 9),
            (Despiked, SPIKE, &[0, 1, 4, 5], 9),
            (Simplified, TWICE, &[1, 2, 3], 4),
            (Despiked, TWICE, &[1, 2, 3], 4),
            (Simplified, BOW, &[0, 1, 2, 3], 4),
            (Despiked, BOW, &[0, 1, 2, 3], 4),
        ] {
            let expected = (at(points, positions), decisions);
            assert_eq!(walked(cleaner, points), expected, "{points:?}");
        }
    }

    #[test]
    fn a_collapsed_contour_has_its_decisions_too() {
        for (points, decisions) in [
            (&[][..], 0),
            (&[[0, 0], [4, 0]], 0),
            (&[[0, 0], [1, 0], [2, 0]], 1),
            (&[[0, 0], [4, 0], [4, 0]], 1),
        ] {
            for cleaner in Cleaner::BOTH {
                assert_eq!(walked(cleaner, points), (None, decisions), "{points:?}");
            }
        }
    }

    #[test]
    fn a_step_over_a_marked_point_is_a_turn() {
        let turns = |cleaner: Cleaner, points: &[Point]| {
            let walked = cleaner.walk(&contour(&points.concat()));
            [walked.decisions, walked.turns]
        };
        let points = [[0, 0], [0, 1], [1, 0], [1, 1], [1, 1]];
        assert_eq!(turns(Simplified, &points), [7, 8]);
        let points = [[0, 0], [0, 1], [0, 2], [1, 0], [1, 0]];
        assert_eq!(turns(Despiked, &points), [7, 8]);
    }

    #[test]
    fn the_new_successor_is_decided_again() {
        let points = [[0, 0], [0, 1], [1, 0], [2, 0]];
        assert_eq!(walked(Simplified, &points).1, 7);
    }

    #[test]
    fn the_long_family_takes_three_decisions_a_point_less_five() {
        for n in [6, 7, 50, 1000] {
            assert_eq!(walked(Despiked, &unclean::returning(n)).1, 3 * n - 5);
        }
    }
}
