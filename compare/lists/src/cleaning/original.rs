//! The original's verdicts and copying forms over shapes.

use crate::cleaner::{Cleaner, Contour};
use crate::counted::crosses_of;
use i_shape::int::despike::{DeSpikeShape, DeSpikeShapes};
use i_shape::int::simple::{SimpleShape, SimpleShapes};

pub type Shape = Vec<Contour>;

/// What a cleaning keeps, and how many decisions it takes.
#[derive(Clone, Debug, PartialEq, Eq)]
pub struct Cleaned<T> {
    pub kept: T,
    pub decisions: usize,
}

impl Cleaner {
    /// Whether every contour passes the cleaner's verdict.
    pub fn passes_all(self, shape: &Shape) -> bool {
        match self {
            Cleaner::Simplified => shape.is_simple(),
            Cleaner::Despiked => shape.has_no_spikes(),
        }
    }

    /// Whether every shape does.
    pub fn passes_every(self, shapes: &Vec<Shape>) -> bool {
        match self {
            Cleaner::Simplified => shapes.is_simple(),
            Cleaner::Despiked => shapes.has_no_spikes(),
        }
    }

    /// The shape cleaned, or none where its first contour collapsed. The cross products
    /// that are not those of the verdicts are its decisions.
    pub fn clean_shape(self, shape: &Shape) -> Cleaned<Option<Shape>> {
        let (kept, crosses) = crosses_of(|| match self {
            Cleaner::Simplified => shape.simplified(),
            Cleaner::Despiked => shape.despiked_shape(),
        });
        let looked_at = if kept.is_some() {
            &shape[..]
        } else {
            &shape[..1]
        };
        let decisions = crosses - self.crosses_of_verdicts(looked_at);
        Cleaned { kept, decisions }
    }

    /// The shapes cleaned. The original asks each shape for its verdict, and those that
    /// fail for their contours' verdicts too.
    pub fn clean_shapes(self, shapes: &Vec<Shape>) -> Cleaned<Vec<Shape>> {
        let (kept, crosses) = crosses_of(|| match self {
            Cleaner::Simplified => shapes.simplified(),
            Cleaner::Despiked => shapes.despiked_shapes(),
        });
        let verdicts: usize = shapes
            .iter()
            .map(|shape| self.crosses_but_decisions(shape))
            .sum();
        Cleaned {
            kept,
            decisions: crosses - verdicts,
        }
    }

    /// The cross products that a shape among others asks for beside its decisions.
    fn crosses_but_decisions(self, shape: &Shape) -> usize {
        let (passes, verdict) = crosses_of(|| self.passes_all(shape));
        if passes {
            return verdict;
        }
        let (cleaned, crosses) = crosses_of(|| self.clean_shape(shape));
        // `clean_shape` asks for the verdicts once more, to count them.
        let verdicts = (crosses - cleaned.decisions) / 2;
        verdict + verdicts
    }

    /// The turns of the contours that are walked: one that passes is not, and none is behind
    /// a collapsed first one.
    pub fn turns_over(self, shape: &Shape) -> usize {
        let mut turns = 0;
        for (place, contour) in shape.iter().enumerate() {
            if self.passes(contour) {
                continue;
            }
            let walked = self.walk(contour);
            turns += walked.turns;
            if place == 0 && walked.kept.is_none() {
                break;
            }
        }
        turns
    }

    fn crosses_of_verdicts(self, contours: &[Contour]) -> usize {
        let ask = || {
            contours
                .iter()
                .filter(|contour| self.passes(contour))
                .count()
        };
        crosses_of(ask).1
    }
}

#[cfg(test)]
mod tests {
    use super::{Cleaned, Cleaner, Shape};
    use crate::cleaning::list;
    use crate::sets::flat::refusal;
    use i_shape::int::despike::DeSpike;
    use i_shape::int::simple::Simplify;

    /// A contour that passes is not walked, and none is behind a collapsed first one.
    fn walked(cleaner: Cleaner, shape: &Shape) -> usize {
        let mut decisions = 0;
        for (place, contour) in shape.iter().enumerate() {
            if cleaner.passes(contour) {
                continue;
            }
            let walked = cleaner.walk(contour);
            decisions += walked.decisions;
            if place == 0 && walked.kept.is_none() {
                break;
            }
        }
        decisions
    }

    #[test]
    fn the_decisions_are_those_of_the_contours_walked() {
        for case in list() {
            let points = case.of.points.all();
            if refusal(&[&points], case.of.sound_shapes()).is_err() || points.len() > 1000 {
                continue;
            }
            let (contours, shapes) = (case.of.to_contours(), case.of.to_shapes());
            for cleaner in Cleaner::BOTH {
                let Cleaned { decisions, .. } = cleaner.clean_shape(&contours);
                assert_eq!(decisions, walked(cleaner, &contours), "{case}");
                let Cleaned { decisions, .. } = cleaner.clean_shapes(&shapes);
                let each = shapes.iter().map(|shape| walked(cleaner, shape));
                assert_eq!(decisions, each.sum::<usize>(), "{case}");
            }
        }
    }

    /// What is left of the shapes if they are cleaned in place.
    fn in_place(cleaner: Cleaner, mut shapes: Vec<Shape>) -> Vec<Shape> {
        match cleaner {
            Cleaner::Simplified => shapes.simplify_contour(),
            Cleaner::Despiked => shapes.remove_spikes(),
        };
        shapes
    }

    #[test]
    fn in_place_an_empty_shape_goes_if_another_collapses() {
        let (empty, collapses): (Shape, Shape) = (vec![], vec![vec![]]);
        for cleaner in Cleaner::BOTH {
            let kept = |shapes: &[&Shape]| {
                let shapes: Vec<Shape> = shapes.iter().copied().cloned().collect();
                let copied = cleaner.clean_shapes(&shapes).kept;
                [copied.len(), in_place(cleaner, shapes).len()]
            };
            assert_eq!(kept(&[&empty]), [1, 1]);
            assert_eq!(kept(&[&collapses]), [0, 0]);
            assert_eq!(kept(&[&empty, &collapses]), [1, 0]);
        }
    }
}
