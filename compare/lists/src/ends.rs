//! Rows with a number at an end of the grid or past it, in each place in turn.

use crate::point::{LIMIT, NARROW};

/// The last numbers on the grid, the first off it, and the ends of i32.
pub const ENDS: [i32; 6] = [LIMIT, -LIMIT, LIMIT + 1, -LIMIT - 1, i32::MAX, i32::MIN];

/// The first numbers off the grid.
pub const PAST: [i32; 2] = [LIMIT + 1, -LIMIT - 1];

/// Numbers of the grid that are off the narrow one.
pub const BETWEEN: [i32; 4] = [NARROW + 1, LIMIT, -NARROW - 1, -LIMIT];

/// The numbers of a small square, and of the whole grid's.
pub const NEAR: [i32; 8] = [0, 0, 4, 0, 4, 4, 0, 4];
pub const FAR: [i32; 8] = [-LIMIT, -LIMIT, LIMIT, -LIMIT, LIMIT, LIMIT, -LIMIT, LIMIT];

/// The first so many of the numbers, over and over, with this one in each place in turn.
fn in_each_place(number: i32, amid: &[i32], length: usize) -> Vec<Vec<i32>> {
    let row: Vec<i32> = amid.iter().copied().cycle().take(length).collect();
    let with = |place| {
        let mut row = row.clone();
        row[place] = number;
        row
    };
    (0..length).map(with).collect()
}

/// Rows of each of these lengths, with each of the numbers in each place.
pub fn rows(numbers: &[i32], amid: &[i32], lengths: &[usize]) -> Vec<Vec<i32>> {
    let mut rows = vec![];
    for &length in lengths {
        for &number in numbers {
            rows.extend(in_each_place(number, amid, length));
        }
    }
    rows
}

#[cfg(test)]
mod tests {
    use crate::point::LIMIT;
    use i_float::int::point::IntPoint;

    /// Overflow is checked, so a product or a sum that did not fit would stop the test.
    #[test]
    fn the_cross_and_the_dot_of_the_original_fit_at_the_ends() {
        const MOST: i64 = i64::MAX - (1 << 34) + 9;
        let [low, high] = [-LIMIT, LIMIT];
        let rising = IntPoint::new(high, high) - IntPoint::new(low, low);
        let falling = IntPoint::new(high, low) - IntPoint::new(low, high);
        let back = IntPoint::new(low, low) - IntPoint::new(high, high);
        assert_eq!(falling.cross_product(rising), MOST);
        assert_eq!(rising.cross_product(falling), -MOST);
        assert_eq!(rising.dot_product(rising), MOST);
        assert_eq!(rising.dot_product(back), -MOST);
    }
}
