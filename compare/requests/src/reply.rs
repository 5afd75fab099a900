//! Document 01's replies.

use crate::grid::{LIMIT, MOST_POINTS, NARROW};

pub const DONE: u8 = 0;
pub const ODD: u8 = 1;
pub const TOO_MANY: u8 = 2;
pub const OFF_GRID: u8 = 3;
pub const SCRATCH: u8 = 4;
pub const ROOM: u8 = 5;
pub const RANGES: u8 = 6;
pub const COLLAPSED: u8 = 7;
pub const EMPTY: u8 = 8;

/// A value, or the number of the refusal.
pub type Reply<T> = Result<T, u8>;

/// The first refusal that is due: 1, 2, 3.
pub fn domain(row: &[i32]) -> Reply<()> {
    refused_if(row.len() % 2 == 1, ODD)?;
    refused_if(row.len() / 2 > MOST_POINTS, TOO_MANY)?;
    on_grid(row)
}

pub fn on_grid(numbers: &[i32]) -> Reply<()> {
    within(LIMIT, numbers)
}

/// What edition 1 files and drawings ask for in 3's place.
pub fn on_narrow_grid(numbers: &[i32]) -> Reply<()> {
    within(NARROW, numbers)
}

fn within(limit: i32, numbers: &[i32]) -> Reply<()> {
    let grid = -limit..=limit;
    let off_grid = |number| !grid.contains(number);
    refused_if(numbers.iter().any(off_grid), OFF_GRID)
}

pub fn not_empty(row: &[i32]) -> Reply<()> {
    refused_if(row.is_empty(), EMPTY)
}

pub fn refused_if(due: bool, reply: u8) -> Reply<()> {
    if due {
        Err(reply)
    } else {
        Ok(())
    }
}

#[cfg(test)]
mod tests {
    use super::{domain, on_grid, on_narrow_grid};

    #[test]
    fn each_grid_ends_where_the_requests_say() {
        for number in [1_073_741_823, 536_870_913] {
            for number in [number, -number] {
                assert_eq!(on_grid(&[number]), Ok(()));
                assert_eq!(domain(&[0, 0, 4, number]), Ok(()));
                assert_eq!(on_narrow_grid(&[number]), Err(3));
            }
        }
        for number in [1_073_741_824, i32::MAX, -1_073_741_824, i32::MIN] {
            assert_eq!(on_grid(&[number]), Err(3));
            assert_eq!(domain(&[0, 0, 4, number]), Err(3));
            assert_eq!(on_narrow_grid(&[number]), Err(3));
        }
        assert_eq!(on_narrow_grid(&[536_870_912, -536_870_912]), Ok(()));
    }
}
