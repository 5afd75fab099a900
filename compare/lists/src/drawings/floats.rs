//! Floats of every class, as coordinates.

use super::case::Case;
use super::sound::{exact, longer};
use crate::rng::Rng;
use requests::drawing::{Drawing, LINE, MOVE};
use requests::exact::{scaled, units, Bits};
use requests::grid::{LIMIT, NARROW};

const SIGN: Bits = 1 << 63;

/// A float of a place whose other coordinate is the one in question.
const OTHER: f64 = 3.25;

/// A contour has so many floats that are all on the grid.
const TOGETHER: usize = 16;

pub const INFINITE: [Bits; 2] = [0x7ff0_0000_0000_0000, 0xfff0_0000_0000_0000];

/// Quiet and signalling, of either sign, with every sort of payload.
pub const NANS: [Bits; 8] = [
    0x7ff8_0000_0000_0000,
    0x7ff0_0000_0000_0001,
    0x7fff_ffff_ffff_ffff,
    0xfff8_0000_0000_0000,
    0xfff0_0000_0000_0001,
    0xffff_ffff_ffff_ffff,
    0x7ff4_dead_beef_0000,
    0xfff0_0000_0010_0000,
];

/// Finite, and off the narrow grid: first past its end and at the end of the grid.
pub fn beyond() -> Vec<Bits> {
    let half_past = scaled(2 * i64::from(NARROW) + 1, -11);
    let mut beyond: Vec<Bits> = (0..3).map(|more| half_past + more).collect();
    beyond.extend((1..4).map(|more| scaled(i64::from(NARROW) + more, -10)));
    beyond.extend((-1..2).map(|half| scaled(2 * i64::from(LIMIT) + half, -11)));
    beyond.extend((20..44).map(|power| scaled(1, power)));
    beyond.extend((52..1023).step_by(61).map(|power| scaled(1, power)));
    beyond.extend([1e9, 1e15, 1e16, 1e18, 1e19, 1e300, 1e308, f64::MAX].map(f64::to_bits));
    both_signs(&beyond)
}

/// Zeros, subnormals, and the powers of two that are on the grid.
fn powers() -> Vec<Bits> {
    let subnormal = (0..52).flat_map(|power| [1 << power, (2 << power) - 1]);
    let normal = (-1022..20).map(|power| scaled(1, power));
    let mut powers: Vec<Bits> = [0].into_iter().chain(subnormal).chain(normal).collect();
    let below = |&power: &Bits| power.saturating_sub(1);
    powers.extend(powers.clone().iter().map(below));
    both_signs(&powers)
}

/// Whole counts of units around each power of two and at the ends of the grid.
fn chosen() -> Vec<i64> {
    let limit = i64::from(NARROW);
    let mut chosen: Vec<i64> = (0..29)
        .flat_map(|power| [(1 << power) - 1, 1 << power])
        .collect();
    chosen.extend((0..12).map(|number| 5 * number));
    chosen.extend((0..4).map(|less| limit - less));
    chosen.extend([0x1234_5678, 0x0abc_def0, 333_333_333, 25_400]);
    chosen
}

/// So many units, half a unit more, and the floats on either side of both.
fn halves() -> Vec<Bits> {
    let mut halves = vec![];
    for count in chosen() {
        for float in [scaled(count, -10), scaled(2 * count + 1, -11)] {
            halves.extend([float.saturating_sub(1), float, float + 1]);
        }
    }
    both_signs(&halves)
}

/// Quarters of a unit, which are no halves, and the floats next to them.
fn quarters() -> Vec<Bits> {
    let quarter = |count| [scaled(4 * count + 1, -12), scaled(4 * count + 3, -12)];
    let quarters = chosen().into_iter().step_by(3).flat_map(quarter);
    both_signs(&quarters.collect::<Vec<_>>())
}

/// What a person writes.
fn written() -> Vec<Bits> {
    let mut written: Vec<f64> = vec![0.1, 0.2, 0.3, 25.4, 12.7, 1.005, 2.675, 1e-3, 1e-9, 99.95];
    written.extend((1..9).map(|part| 1.0 / f64::from(part)));
    written.extend([
        0.49999999999999994 / 1024.0,
        0.5 / 1024.0,
        3.5 / 1024.0,
        524288.0,
    ]);
    written.extend([0.000_488_281_25, 0.001_464_843_75, 524_287.999_511_718_75]);
    both_signs(&written.into_iter().map(f64::to_bits).collect::<Vec<_>>())
}

fn both_signs(floats: &[Bits]) -> Vec<Bits> {
    let both = |&float: &Bits| [float, float | SIGN];
    floats.iter().flat_map(both).collect()
}

/// Any pattern at all.
pub fn any_pattern(rng: &mut Rng) -> Bits {
    (rng.below(1 << 32) as Bits) << 32 | rng.below(1 << 32) as Bits
}

/// Of a size around the grid's: the unit, the millimetre, the ends, and some beyond.
pub fn near_the_grid(rng: &mut Rng) -> Bits {
    let exponent = 1023 + i64::from(rng.between(-14, 20));
    any_pattern(rng) & (SIGN | ((1 << 52) - 1)) | (exponent as Bits) << 52
}

/// At a whole count of units, or half or a quarter between two, or next to that.
pub fn near_a_half(rng: &mut Rng) -> Bits {
    let limit = i64::from(NARROW);
    let count = match rng.below(4) {
        0 => limit - rng.below(3) as i64,
        1 => rng.below(4) as i64,
        _ => rng.below(NARROW as usize) as i64 >> rng.below(29),
    };
    let float = match rng.below(4) {
        0 => scaled(count, -10),
        1 => scaled(4 * count + rng.pick(&[1, 3]), -12),
        _ => scaled(2 * count + 1, -11),
    };
    let sign = rng.pick(&[0, SIGN]);
    float.saturating_add_signed(rng.pick(&[-2, -1, -1, 0, 0, 0, 1, 1, 2])) | sign
}

/// Any float that is on the grid.
pub fn on_grid(rng: &mut Rng) -> Bits {
    loop {
        let float = match rng.below(8) {
            0 => rng.pick(&[0, 1, 0xf_ffff_ffff_ffff, 1 << 52]) | rng.pick(&[0, SIGN]),
            1 => any_pattern(rng),
            2 | 3 => near_the_grid(rng),
            4 => (f64::from(rng.between(-9_999_999, 9_999_999)) / 1000.0).to_bits(),
            _ => near_a_half(rng),
        };
        if units(float).is_ok() {
            return float;
        }
    }
}

/// Any float, of which some are off the grid and some not finite.
pub fn any(rng: &mut Rng) -> Bits {
    match rng.below(8) {
        0 => rng.pick(&NANS),
        1 => rng.pick(&INFINITE),
        2 => rng.pick(&beyond()),
        3 => any_pattern(rng),
        4 => near_the_grid(rng),
        _ => on_grid(rng),
    }
}

/// All classes in the order of the list.
pub fn cases() -> Vec<Case> {
    let rng = &mut Rng::new(701);
    let mut floats = [powers(), halves(), quarters(), written(), beyond()].concat();
    floats.extend((0..240).map(|_| any_pattern(rng)));
    floats.extend((0..800).map(|_| near_the_grid(rng)));
    floats.extend((0..1200).map(|_| near_a_half(rng)));
    floats.extend([&NANS[..], &INFINITE].concat());
    drawn(&floats)
}

/// Floats on the grid stand together in contours, and any other in a drawing of its own, by
/// turns as either coordinate of a Move or a Line.
fn drawn(floats: &[Bits]) -> Vec<Case> {
    let (on_grid, others): (Vec<Bits>, Vec<Bits>) =
        floats.iter().partition(|float| units(**float).is_ok());
    let together = on_grid
        .chunks(TOGETHER)
        .map(|floats| exact(&contour(floats)));
    let alone = others
        .iter()
        .enumerate()
        .map(|(turn, &float)| longer(&single(turn, float)));
    together.chain(alone).collect()
}

/// The floats in pairs, as the places of one contour; one that is left over stands beside a
/// number.
fn contour(floats: &[Bits]) -> Drawing {
    let mut drawing = Drawing::default();
    for place in floats.chunks(2) {
        let kind = if drawing.kinds.is_empty() { MOVE } else { LINE };
        drawing.to(kind, [place[0], *place.last().expect("a pair")]);
    }
    drawing.close();
    drawing
}

fn single(turn: usize, float: Bits) -> Drawing {
    let other = OTHER.to_bits();
    let mut place = [other, other];
    place[turn % 2] = float;
    let mut drawing = Drawing::default();
    if turn % 4 > 1 {
        drawing.to(MOVE, [other, other]);
        drawing.to(LINE, place);
    } else {
        drawing.to(MOVE, place);
    }
    drawing
}

#[cfg(test)]
mod tests {
    use super::{beyond, halves, powers, quarters, units, INFINITE, NANS, NARROW};

    #[test]
    fn each_class_is_what_it_says() {
        let reply = |float: &u64| units(*float).err().unwrap_or(0);
        assert!(powers().iter().all(|float| reply(float) == 0));
        assert!(quarters().iter().all(|float| reply(float) == 0));
        assert!(beyond().iter().all(|float| reply(float) == 3));
        assert!(NANS.iter().chain(&INFINITE).all(|float| reply(float) == 14));
        assert_eq!(halves().iter().filter(|float| reply(float) == 3).count(), 4);
        assert!(halves().iter().any(|float| units(*float) == Ok(NARROW)));
    }
}
