//! Drawings brought in and sets given back, against the arithmetic in `requests`.

use crate::input::{Found, Input};
use crate::library::answer::{Drawn, Packed};
use crate::library::{export_mm, import_mm, Lent};
use lists::drawings::case::Lengths;
use lists::drawings::{Case, Export, Import, FLOAT, KIND, NUMBER, RECORD};
use lists::sets::flat::Record;
use requests::drawing::Drawing;

impl Input for Case {
    fn compare(&self) -> Found {
        let mut found = Found::default();
        let before = self.clone();
        match self {
            Case::Import { lent, drawing } => {
                let original = Import::new(*lent, drawing);
                import(&mut found, &original, drawing);
                if let Some(again) = original.again() {
                    let points = &original.numbers[..2 * original.points];
                    export(
                        &mut found,
                        &again,
                        points,
                        &original.records[..original.contours],
                    );
                }
            }
            Case::Export {
                lent,
                contours,
                points,
            } => exported(&mut found, *lent, &points.all(), contours),
        }
        found.hold_unchanged(&before, self);
        found
    }

    fn size(&self) -> usize {
        match self {
            Case::Import { drawing, .. } => drawing.kinds.len() + drawing.floats.len(),
            Case::Export {
                contours, points, ..
            } => points.numbers.len() * points.times + 2 * contours.len(),
        }
    }
}

/// What the library gave back is brought in again.
fn exported(found: &mut Found, lent: Lengths, points: &[i32], contours: &[Record]) {
    let before = (points.to_vec(), contours.to_vec());
    let original = Export::new(lent, points, contours);
    export(found, &original, points, contours);
    if let Some(again) = original.again() {
        let drawing = Drawing {
            kinds: original.kinds[..original.commands].to_vec(),
            floats: original.places[..original.floats].to_vec(),
        };
        import(found, &again, &drawing);
    }
    found.hold_unchanged(&before, &(points.to_vec(), contours.to_vec()));
}

fn import(found: &mut Found, original: &Import, drawing: &Drawing) {
    let mut numbers = Lent::new(NUMBER, original.numbers.len());
    let mut records = Lent::new(RECORD, original.records.len());
    let answer = import_mm(&drawing.kinds, &drawing.floats, &mut numbers, &mut records);
    let expected = Packed {
        reply: original.reply.into(),
        points: original.points,
        contours: original.contours,
        shapes: 0,
    };
    found.hold("import_mm", expected, answer);
    found.hold_row("points", &original.numbers, &numbers);
    found.hold_row("records", &original.records, &records);
}

fn export(found: &mut Found, original: &Export, points: &[i32], contours: &[Record]) {
    let mut kinds = Lent::new(KIND, original.kinds.len());
    let mut floats = Lent::new(FLOAT, original.places.len());
    let answer = export_mm(points, contours, &mut kinds, &mut floats);
    let expected = Drawn {
        reply: original.reply.into(),
        commands: original.commands,
        floats: original.floats,
    };
    found.hold("export_mm", expected, answer);
    found.hold_row("kinds", &original.kinds, &kinds);
    found.hold_row("floats", &original.places, &floats);
}
