//! Floats as the whole numbers and the powers of two that they are made of. Nothing is
//! computed in floats.

use crate::grid::{Point, NARROW};
use crate::reply::{refused_if, Reply, OFF_GRID};

/// A float by its bits: NaNs with different payloads are different, and so are the zeros.
pub type Bits = u64;

/// A NaN or an infinity.
pub const NOT_FINITE: u8 = 14;

/// A millimetre is 2 to so many units.
const UNITS: i32 = 10;

/// `size` times 2 to the `power`, below zero or not.
struct Number {
    below: bool,
    size: u64,
    power: i32,
}

/// What a float says; a NaN and the infinities say nothing.
fn number(float: Bits) -> Option<Number> {
    let exponent = float >> 52 & 0x7ff;
    let fraction = float & ((1 << 52) - 1);
    let (size, power) = match exponent as i32 {
        0x7ff => return None,
        0 => (fraction, -1074),
        exponent => (1 << 52 | fraction, exponent - 1075),
    };
    Some(Number {
        below: float >> 63 == 1,
        size,
        power,
    })
}

impl Number {
    /// The whole number nearest to it, of two the one farther from zero; none if it is too
    /// large to be on any grid.
    fn nearest(&self) -> Option<i128> {
        let size = i128::from(self.size);
        let nearest = match self.power {
            _ if size == 0 => 0,
            power @ 0..=64 => size << power,
            // The size is below 2^53: under 2^-64 of it is nearest to nothing.
            power @ -64..=-1 => (2 * size + (1 << -power)) >> (1 - power),
            power if power < 0 => 0,
            _ => return None,
        };
        Some(if self.below { -nearest } else { nearest })
    }
}

pub fn finite(float: Bits) -> Reply<()> {
    refused_if(number(float).is_none(), NOT_FINITE)
}

/// A float that is finite, of millimetres, in units: 3 beyond the narrow grid.
pub fn units(float: Bits) -> Reply<i32> {
    let number = number(float).ok_or(NOT_FINITE)?;
    let power = number.power + UNITS;
    let nearest = Number { power, ..number }.nearest().ok_or(OFF_GRID)?;
    let limit = i128::from(NARROW);
    refused_if(!(-limit..=limit).contains(&nearest), OFF_GRID)?;
    Ok(nearest as i32)
}

/// First both coordinates must be finite, then both on the narrow grid.
pub fn point([x, y]: [Bits; 2]) -> Reply<Point> {
    finite(x)?;
    finite(y)?;
    Ok([units(x)?, units(y)?])
}

/// The float of millimetres that so many units are.
pub fn millimetres(units: i32) -> Bits {
    scaled(units.into(), -UNITS)
}

/// The float that is exactly a number below 2^53 times 2 to the power, as a normal one.
pub fn scaled(number: i64, power: i32) -> Bits {
    let size = number.unsigned_abs();
    if size == 0 {
        return 0;
    }
    let length = size.ilog2();
    assert!(length <= 52, "{number} takes more than 53 bits");
    let exponent = 1023 + length as i32 + power;
    assert!((1..0x7ff).contains(&exponent), "2^{power} is too far off");
    let fraction = size << (52 - length) & ((1 << 52) - 1);
    u64::from(number < 0) << 63 | (exponent as u64) << 52 | fraction
}

#[cfg(test)]
mod tests {
    use super::{millimetres, number, point, scaled, units, Number, NARROW};

    /// The numbers below 2^32 in an order of no order.
    fn scattered(count: u64) -> impl Iterator<Item = u64> {
        (1..=count).map(|k| k.wrapping_mul(0x9E37_79B9_7F4A_7C15) >> 32)
    }

    fn of(float: f64) -> Result<i32, u8> {
        units(float.to_bits())
    }

    #[test]
    fn the_worked_coordinates() {
        assert_eq!(of(0.0), Ok(0));
        assert_eq!(of(-0.0), Ok(0));
        assert_eq!(of(1.0), Ok(1024));
        assert_eq!(of(-25.4), Ok(-26_010));
        assert_eq!(of(f64::MIN_POSITIVE / 8.0), Ok(0));
        assert_eq!(of(0.5 / 1024.0), Ok(1));
        assert_eq!(of(-0.5 / 1024.0), Ok(-1));
        assert_eq!(of(1.5 / 1024.0), Ok(2));
        assert_eq!(of(0.49999999999999994 / 1024.0), Ok(0));
        assert_eq!(of(524288.0), Ok(NARROW));
        assert_eq!(of(-524288.0), Ok(-NARROW));
        let past: f64 = 524288.0 + 0.5 / 1024.0;
        assert_eq!(of(past), Err(3));
        assert_eq!(of(past.next_down()), Ok(NARROW));
        assert_eq!(of(-past), Err(3));
        assert_eq!(of(1e308), Err(3));
        assert_eq!(of(f64::MAX), Err(3));
        assert_eq!(of(f64::INFINITY), Err(14));
        assert_eq!(of(f64::NAN), Err(14));
    }

    #[test]
    fn a_place_is_finite_before_it_is_on_the_grid() {
        let place = |x: f64, y: f64| point([x.to_bits(), y.to_bits()]);
        assert_eq!(place(1.0, -2.0), Ok([1024, -2048]));
        assert_eq!(place(1e9, f64::NAN), Err(14));
        assert_eq!(place(f64::NEG_INFINITY, 1e9), Err(14));
        assert_eq!(place(0.0, 1e9), Err(3));
    }

    /// Twice the number and twice what is nearest are at most 1 apart, and where they are 1
    /// apart the nearest is farther from zero.
    #[test]
    fn the_nearest_is_never_more_than_half_off() {
        for (any, k) in scattered(100_000).zip(0..) {
            let size = any >> (k % 32);
            let power = k % 49 - 40;
            let number = Number {
                below: false,
                size,
                power,
            };
            let nearest = number.nearest().unwrap();
            let one = 1i128 << -power.min(0);
            let off = 2 * (nearest * one - (i128::from(size) << power.max(0)));
            assert!(-one < off && off <= one, "{size} {power}");
        }
    }

    #[test]
    fn what_goes_out_comes_in_again() {
        for (any, k) in scattered(100_000).zip(0..) {
            let x = (any as i32 / 4) >> (k % 30);
            assert_eq!(units(millimetres(x)), Ok(x));
            assert_eq!(f64::from_bits(millimetres(x)), f64::from(x) / 1024.0);
        }
    }

    #[test]
    fn a_scaled_number_says_itself() {
        for (whole, power) in [(1, 0), (-3, -1), (1 << 52, -60), ((1 << 53) - 1, 7)] {
            let float = number(scaled(whole, power)).unwrap();
            let shift = float.power - power;
            let size = i128::from(whole.unsigned_abs());
            assert_eq!(
                i128::from(float.size) << shift.max(0),
                size << -shift.min(0)
            );
            assert_eq!(float.below, whole < 0);
        }
    }
}
