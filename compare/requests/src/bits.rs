//! Bits, the most significant first.

/// Reads a file from a place that is counted in bits.
pub struct BitReader<'a> {
    file: &'a [u8],
    place: usize,
}

impl BitReader<'_> {
    pub fn new(file: &[u8]) -> BitReader<'_> {
        BitReader { file, place: 0 }
    }

    /// How many bits are left.
    pub fn left(&self) -> usize {
        8 * self.file.len() - self.place
    }

    /// The next `width` bits, which must be there, as a number.
    pub fn next(&mut self, width: usize) -> u32 {
        (0..width).fold(0, |number, _| number << 1 | self.bit())
    }

    /// The next `width` bits, at least one, in two's complement: the first says whether the number is below 0.
    pub fn next_signed(&mut self, width: usize) -> i64 {
        let sign = -i64::from(self.bit());
        (1..width).fold(sign, |number, _| 2 * number + i64::from(self.bit()))
    }

    fn bit(&mut self) -> u32 {
        let byte = self.file[self.place / 8];
        let bit = byte >> (7 - self.place % 8) & 1;
        self.place += 1;
        bit.into()
    }
}

/// The bits of a file that is being written.
#[derive(Default)]
pub struct BitWriter {
    bits: Vec<bool>,
}

impl BitWriter {
    /// Writes the last `width` bits of the number.
    pub fn push(&mut self, width: usize, number: u32) {
        self.push_signed(width, number.into());
    }

    /// Writes the last `width` bits of the number in two's complement.
    pub fn push_signed(&mut self, width: usize, number: i64) {
        let bit = |place| number >> place & 1 == 1;
        self.bits.extend((0..width).rev().map(bit));
    }

    /// How many bits are written.
    pub fn written(&self) -> usize {
        self.bits.len()
    }

    /// The bytes, the last of them filled up with zero bits.
    pub fn into_file(mut self) -> Vec<u8> {
        self.bits.resize(self.bits.len().next_multiple_of(8), false);
        let byte = |bits: &[bool]| bits.iter().fold(0, |byte, &bit| byte << 1 | u8::from(bit));
        self.bits.chunks(8).map(byte).collect()
    }
}

#[cfg(test)]
mod tests {
    use super::{BitReader, BitWriter};

    #[test]
    fn the_most_significant_bit_comes_first() {
        let bits = &mut BitReader::new(&[0x1a, 0xbc, 0xff]);
        assert_eq!((bits.next(4), bits.next(12)), (0x1, 0xabc));
        assert_eq!((bits.left(), bits.next(1), bits.next(6)), (8, 1, 0x3f));
        assert_eq!((bits.left(), bits.next(0)), (1, 0));
    }

    #[test]
    fn the_first_bit_of_a_signed_number_is_its_sign() {
        let bits = &mut BitReader::new(&[0b0110_1011, 0b0001_1111, 0x80, 0, 0, 0]);
        assert_eq!((bits.next_signed(1), bits.next_signed(1)), (0, -1));
        assert_eq!((bits.next_signed(2), bits.next_signed(3)), (-2, -3));
        assert_eq!((bits.next_signed(5), bits.next_signed(4)), (-15, -1));
        assert_eq!((bits.next_signed(32), bits.left()), (i32::MIN.into(), 0));
    }

    #[test]
    fn what_is_written_is_read() {
        let mut bits = BitWriter::default();
        bits.push(4, 0xf1);
        bits.push(12, 0xabc);
        bits.push_signed(32, -2);
        bits.push_signed(3, -4);
        assert_eq!(bits.written(), 51);
        assert_eq!(bits.into_file(), [0x1a, 0xbc, 0xff, 0xff, 0xff, 0xfe, 0x80]);
    }
}
