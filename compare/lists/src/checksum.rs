//! A row's numbers in one.

/// From 0 on, each number is added to 31 times what was there, modulo 2^32. A number
/// below 0 counts as its two's complement.
pub fn checksum<T: Copy + Into<i64>>(row: &[T]) -> u32 {
    row.iter().fold(0, |sum: u32, &number| {
        let number: i64 = number.into();
        sum.wrapping_mul(31).wrapping_add(number as u32)
    })
}

/// How many numbers a part has, and their checksum.
pub fn part(numbers: &[i32]) -> String {
    format!("{}:{}", numbers.len(), checksum(numbers))
}

#[cfg(test)]
mod tests {
    use super::checksum;

    #[test]
    fn a_row_is_added_up_in_order() {
        assert_eq!(checksum::<i32>(&[]), 0);
        assert_eq!(checksum(&[1, 2, 3]), (31 + 2) * 31 + 3);
        assert_eq!(checksum(&[-7]), 4_294_967_289);
        assert_eq!(checksum(&[-1, 31]), 0);
        assert_eq!(checksum(&[7u8; 2]), checksum(&[7u32; 2]));
    }
}
