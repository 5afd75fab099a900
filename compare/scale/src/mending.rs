//! Files mended, against the salvage in `requests`, and what holds of whatever is written.

use crate::input::Found;
use crate::library::answer::Salvaged;
use crate::library::{salvage, Lent};
use lists::files::mendings::promised;
use lists::files::{self, contours_read, Mending};

pub fn hold(found: &mut Found, lent: files::Lent, file: &[u8]) {
    let original = Mending::new(lent, file);
    let mut out = Lent::new(7, lent.out);
    let mut list = Lent::new([7, 7], lent.list);
    let answer = salvage(file, &mut out, &mut list);
    let expected = Salvaged {
        reply: original.reply.into(),
        bytes: original.bytes,
        dropped: original.dropped,
        missing: original.missing,
        past: original.past,
    };
    found.hold("salvage", expected, answer);
    found.hold_row("out", &original.out, &out);
    found.hold_row("dropped", &original.list, &list);
    if answer.reply == 0 {
        let written = out.row().get(..answer.bytes).unwrap_or_default();
        hold_contours(found, file, written, answer);
        hold_again(found, written);
    }
}

/// What was written is read, and its contours, those dropped and those missing are those promised.
fn hold_contours(found: &mut Found, file: &[u8], written: &[u8], answer: Salvaged) {
    let all = contours_read(written).map(|kept| kept + answer.dropped + answer.missing);
    found.hold("contours", Some(promised(file)), all);
}

/// Mended again it comes back whole.
fn hold_again(found: &mut Found, written: &[u8]) {
    let count = contours_read(written).unwrap_or_default();
    let mut out = Lent::new(7, written.len());
    let mut list = Lent::new([7, 7], count);
    let whole = Salvaged {
        reply: 0,
        bytes: written.len(),
        dropped: 0,
        missing: 0,
        past: 0,
    };
    found.hold(
        "salvage again",
        whole,
        salvage(written, &mut out, &mut list),
    );
    found.hold_row("out again", written, &out);
    found.hold_row("dropped again", &vec![[7, 7]; count], &list);
}
