//! Random drawings and sets, coming in and going out.

use super::long::{length, set_of};
use crate::tally::Tally;
use lists::drawings::back::{any_export, around};
use lists::drawings::case::LONGEST_IN;
use lists::drawings::faults::any_import;
use lists::drawings::floats::{any, on_grid};
use lists::drawings::sound::{beside, import, need};
use lists::point::NARROW;
use lists::rng::Rng;
use requests::drawing::{Drawing, CLOSE, LINE, MOVE};
use requests::exact::Bits;

pub fn imported(tally: &mut Tally, rng: &mut Rng) {
    tally.compare(&any_import(rng));
}

pub fn exported(tally: &mut Tally, rng: &mut Rng) {
    tally.compare(&any_export(rng));
}

/// A drawing of many points, and a set of many.
pub fn long(tally: &mut Tally, rng: &mut Rng) {
    let offsets = [(); 2].map(|()| rng.pick(&[-1, 0, 0, 0, 0, 1, 3]));
    let drawing = long_drawing(rng);
    let lent = beside(need(&drawing), offsets, LONGEST_IN);
    tally.compare(&import(lent, &drawing));
    let count = length(rng);
    tally.compare(&around(&set_of(count, NARROW, rng), offsets));
}

/// Contours of a length that is the drawing's own, by turns closed or not; one drawing in four has a fault somewhere.
fn long_drawing(rng: &mut Rng) -> Drawing {
    let count = length(rng) + rng.pick(&[0, 0, 0, 4000]);
    let mean = rng.pick(&[1, 2, 5, 100, 100_000]);
    let floats: Vec<Bits> = (0..100).map(|_| on_grid(rng)).collect();
    let mut drawing = Drawing::default();
    let mut open = false;
    for _ in 0..count {
        if open && rng.below(2 * mean) == 0 {
            drawing.close();
            open = false;
        }
        let begins = !open || rng.below(mean) == 0;
        let place = [rng.pick(&floats), rng.pick(&floats)];
        drawing.to(if begins { MOVE } else { LINE }, place);
        open = true;
    }
    if rng.below(4) == 0 && count > 0 {
        fault(&mut drawing, rng);
    }
    drawing
}

fn fault(drawing: &mut Drawing, rng: &mut Rng) {
    let kind = rng.below(drawing.kinds.len());
    let float = rng.below(drawing.floats.len());
    match rng.below(4) {
        0 => drawing.kinds[kind] = rng.pick(&[CLOSE, 3]),
        1 => drop(drawing.floats.remove(float)),
        2 => drawing.kinds.extend([CLOSE, CLOSE]),
        _ => drawing.floats[float] = any(rng),
    }
}
