//! Files read and mended, and sets written, against the reader and the writers in `requests`.

use crate::input::{Found, Input};
use crate::library::answer::{Read, Written};
use crate::library::{read_set, Flat, Lent, Rows};
use crate::mending;
use crate::sets::{flat, hold_rows, size_of};
use lists::files::{Case, Reading, Writing};
use lists::sets::rows::Lengths;
use requests::edition::Edition;

impl Input for Case {
    fn compare(&self) -> Found {
        let mut found = Found::default();
        let before = self.clone();
        match self {
            Case::Reading { lent, file } => reading(&mut found, *lent, file),
            Case::Writing { edition, room, set } => {
                let points = set.points.all();
                let original = Writing::new(*edition, set, *room);
                writing(&mut found, *edition, &original, flat(set, &points));
                found.hold_unchanged(&set.points.all(), &points);
            }
            Case::Mending { lent, file } => mending::hold(&mut found, *lent, file),
        }
        found.hold_unchanged(&before, self);
        found
    }

    fn size(&self) -> usize {
        match self {
            Case::Reading { file, .. } | Case::Mending { file, .. } => file.len(),
            Case::Writing { set, .. } => size_of(set),
        }
    }
}

/// What the library read is written again.
fn reading(found: &mut Found, lent: Lengths, file: &[u8]) {
    let original = Reading::new(lent, file);
    let mut rows = Rows::with_canaries(lent);
    let answer = read_set(file, &mut rows);
    let expected = Read {
        reply: original.reply.into(),
        edition: original.edition,
        points: original.points,
        contours: original.contours,
        shapes: original.shapes,
    };
    found.hold("read_set", expected, answer);
    hold_rows(found, &original.rows, &rows);
    if let Some(again) = &original.again {
        let set = Flat {
            points: &rows.out.row()[..2 * original.points],
            contours: &rows.records.row()[..original.contours],
            shapes: &rows.groups.row()[..original.shapes],
        };
        let edition = Edition::BOTH[original.edition as usize - 1];
        writing(found, edition, again, set);
    }
}

fn writing(found: &mut Found, edition: Edition, original: &Writing, set: Flat) {
    let mut out = Lent::new(7, original.row.len());
    let answer = set.write(edition, &mut out);
    let expected = Written {
        reply: original.reply.into(),
        bytes: original.bytes,
    };
    let name = match edition {
        Edition::One => "write_set",
        Edition::Two => "write_set_2",
    };
    found.hold(name, expected, answer);
    found.hold_row("file", &original.row, &out);
}
