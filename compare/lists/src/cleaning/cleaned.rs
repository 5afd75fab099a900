//! A cleaning by the original, and the rows lent to it: as they are before the call, and
//! as document 01 has them after it.

use super::case::{Form, Lengths};
use super::original::{Cleaned, Shape};
use crate::cleaner::row;
use crate::scratch::Scratch;
use crate::sets::flat::{contour_set, records, refusal, shape_set, Record, Set};
use crate::sets::rows::Rows;
use requests::reply::{refused_if, Reply, COLLAPSED, DONE, ROOM};
use std::fmt;

/// What a cleaning answers, and the rows after it.
#[derive(Debug, PartialEq, Eq)]
pub struct Cleaning {
    pub reply: u8,
    pub points: usize,
    pub contours: usize,
    pub shapes: usize,
    pub decisions: usize,
    pub turns: usize,
    pub scratch: Scratch,
    pub rows: Rows,
}

pub fn answer(form: Form, lent: Lengths, set: &Set) -> Cleaning {
    let before = Cleaning {
        reply: DONE,
        points: 0,
        contours: 0,
        shapes: 0,
        decisions: 0,
        turns: 0,
        scratch: Scratch::with_canaries(lent.scratch),
        rows: Rows::with_canaries(lent.rows),
    };
    let cleaner = form.cleaner;
    match refusal_of(form, lent, set) {
        Err(reply) => Cleaning { reply, ..before },
        Ok(()) if form.shapes => {
            let shapes = set.to_shapes();
            let turns = shapes.iter().map(|shape| cleaner.turns_over(shape)).sum();
            let before = Cleaning { turns, ..before };
            before.after_shapes(cleaner.clean_shapes(&shapes), set)
        }
        Ok(()) => {
            let contours = set.to_contours();
            let turns = cleaner.turns_over(&contours);
            let before = Cleaning { turns, ..before };
            before.after_shape(cleaner.clean_shape(&contours), set)
        }
    }
}

/// The first refusal that is due: 1, 2, 6, 3, 4, 5. The room is that of the input.
fn refusal_of(form: Form, lent: Lengths, set: &Set) -> Reply<()> {
    let points = set.points.all();
    let sound = if form.shapes {
        set.sound_shapes()
    } else {
        set.sound_contours()
    };
    refusal(&[&points], sound)?;
    lent.scratch.enough_for(points.len() / 2)?;
    refused_if(lent.rows.out < points.len(), ROOM)?;
    refused_if(lent.rows.records < set.contours.len(), ROOM)?;
    refused_if(form.shapes && lent.rows.groups < set.shapes.len(), ROOM)
}

impl Cleaning {
    fn after_shape(self, cleaned: Cleaned<Option<Shape>>, set: &Set) -> Cleaning {
        let after = self.walked(cleaned.decisions, set);
        let Some(kept) = cleaned.kept else {
            return Cleaning {
                reply: COLLAPSED,
                ..after
            };
        };
        let mut packed = contour_set(&[], &[]);
        packed.set_with_shape(&kept);
        let stored = after.stored(&row(&packed.points), &records(&packed.ranges), &[]);
        Cleaning {
            shapes: 1,
            ..stored
        }
    }

    fn after_shapes(self, cleaned: Cleaned<Vec<Shape>>, set: &Set) -> Cleaning {
        let mut packed = shape_set(&[], &[], &[]);
        packed.set_with_shapes(&cleaned.kept);
        let contours = records(&packed.contour_ranges);
        let shapes = records(&packed.shape_ranges);
        self.walked(cleaned.decisions, set)
            .stored(&row(&packed.points), &contours, &shapes)
    }

    /// The scratch is zeroed, as many entries as the set has points.
    fn walked(self, decisions: usize, set: &Set) -> Cleaning {
        Cleaning {
            decisions,
            scratch: self.scratch.zeroed(set.points.all().len() / 2),
            ..self
        }
    }

    /// What is kept stands in front of the rows.
    fn stored(self, points: &[i32], contours: &[Record], shapes: &[Record]) -> Cleaning {
        let rows = self.rows.holding(points, contours, shapes);
        Cleaning {
            points: points.len() / 2,
            contours: contours.len(),
            shapes: shapes.len(),
            rows: rows.expect("what is kept is no more than what was there"),
            ..self
        }
    }
}

impl fmt::Display for Cleaning {
    fn fmt(&self, out: &mut fmt::Formatter) -> fmt::Result {
        let counts = [
            self.points,
            self.contours,
            self.shapes,
            self.decisions,
            self.turns,
        ];
        let counts = counts.map(|count| count.to_string()).join(" ");
        write!(
            out,
            "{} {counts} {} {}",
            self.reply, self.scratch, self.rows
        )
    }
}

#[cfg(test)]
mod tests {
    use super::{answer, Cleaning};
    use crate::cleaning::case::{Case, Kind};
    use crate::scratch::Scratch;
    use crate::sets::rows::Rows;

    fn asked(line: &str) -> Case {
        line.parse().unwrap()
    }

    fn cleaned(line: &str) -> Cleaning {
        let case = asked(line);
        match case.kind {
            Kind::Cleaning { form, lent } => answer(form, lent, &case.of),
            Kind::Asked { .. } => panic!("{line} is no cleaning"),
        }
    }

    fn counts(cleaning: &Cleaning) -> [usize; 6] {
        let Cleaning {
            reply,
            points,
            contours,
            shapes,
            decisions,
            turns,
            ..
        } = *cleaning;
        [reply.into(), points, contours, shapes, decisions, turns]
    }

    #[test]
    fn a_hole_that_collapses_is_dropped_and_later_ranges_move_up() {
        // A straight square, a hole in a line, a spike of which four points stay.
        let set = "3 0 5 5 8 8 14 1 0 3 0 0 2 0 4 0 4 4 0 4 0 0 1 0 2 0 0 0 4 0 4 4 4 8 4 4 0 4";
        for (form, lent) in [(0, "14 15 16 29 3 0"), (2, "14 15 16 29 4 2")] {
            let cleaning = cleaned(&format!("W {form} {lent} {set}"));
            assert_eq!(counts(&cleaning), [0, 8, 2, 1, 6 + 1 + 9, 6 + 1 + 9]);
            assert_eq!(cleaning.rows.records[..2], [[0, 4], [4, 8]]);
            assert_eq!(cleaning.rows.records[2..], vec![[7, 7]; 1 + form / 2]);
            assert_eq!(cleaning.rows.out[16..], [-7; 13]);
            assert_eq!(cleaning.scratch.next, [0; 14]);
            assert_eq!(cleaning.scratch.mark[13..], [0, 7, 7]);
        }
        let cleaning = cleaned(&format!("W 2 14 15 16 29 4 2 {set}"));
        assert_eq!(cleaning.rows.groups, [[0, 2], [7, 7]]);
    }

    #[test]
    fn a_shape_goes_with_its_first_contour() {
        let set = "2 0 3 3 8 2 0 2 2 2 0 0 1 0 2 0 0 0 2 0 4 0 4 4 0 4";
        let one = cleaned(&format!("W 0 8 8 8 16 2 0 {set}"));
        assert_eq!(counts(&one), [7, 0, 0, 0, 1, 1]);
        assert_eq!(one.rows.out, [-7; 16]);
        assert_eq!(one.scratch.prev, [0; 8]);
        let all = cleaned(&format!("W 2 8 8 8 16 2 2 {set}"));
        assert_eq!(counts(&all), [0, 0, 0, 1, 1, 1]);
        assert_eq!(all.rows.groups, [[0, 0], [7, 7]]);
    }

    #[test]
    fn a_contour_without_spikes_keeps_its_duplicates() {
        let cleaning = cleaned("W 1 4 4 4 8 1 0 1 0 4 1 0 1 0 0 0 0 4 0 0 4");
        assert_eq!(counts(&cleaning), [0, 4, 1, 1, 0, 0]);
    }

    #[test]
    fn the_first_refusal_that_is_due_is_given_and_changes_nothing() {
        for (line, reply) in [
            ("W 0 0 0 0 0 0 0 0 0 1073741824", 1),
            ("W 0 0 0 0 0 0 0 0 0 1073741824 0 *65537", 2),
            ("W 0 0 0 0 0 0 0 0 0 1073741824 0", 6),
            ("W 2 0 0 0 0 0 0 1 0 1 0 1073741824 0", 6),
            ("W 0 0 0 0 0 0 0 1 0 1 0 1073741824 0", 3),
            ("W 0 1 1 0 0 0 0 1 0 1 0 5 6", 4),
            ("W 0 1 1 1 1 0 0 1 0 1 0 5 6", 5),
            ("W 0 1 1 1 2 0 0 1 0 1 0 5 6", 5),
            ("W 0 1 1 1 2 1 0 1 0 1 0 5 6", 7),
            ("W 2 1 1 1 2 1 0 1 0 1 1 0 1 5 6", 5),
        ] {
            let cleaning = cleaned(line);
            assert_eq!(counts(&cleaning), [reply, 0, 0, 0, 0, 0], "{line}");
            let Kind::Cleaning { lent, .. } = asked(line).kind else {
                panic!()
            };
            assert_eq!(cleaning.rows, Rows::with_canaries(lent.rows), "{line}");
            if reply != 7 {
                let before = Scratch::with_canaries(lent.scratch);
                assert_eq!(cleaning.scratch, before, "{line}");
            }
        }
    }
}
