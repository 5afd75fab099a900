//! A set file of edition 2 read and written in plain Rust, as a user without the library would do it. The highest bits
//! are first: four of edition and twelve of count; for each contour a bit that begins a shape, fifteen of count, six of
//! width, the first point, and each further one as its differences from the one before, in so many bits each; then
//! zeros to the end of the byte.

use i_float::int::point::IntPoint;
use i_shape::flat::buffer::FlatShapesBuffer;

type Point = IntPoint<i32>;

/// The bits in front of a file: those of `bits` that are held, and behind them the bytes.
struct Reader<'a> {
    bits: u64,
    held: u32,
    bytes: &'a [u8],
}

impl Reader<'_> {
    fn left(&self) -> usize {
        self.held as usize + 8 * self.bytes.len()
    }

    /// Four bytes more, or the last ones.
    fn hold(&mut self) {
        if let Some((&word, behind)) = self.bytes.split_first_chunk() {
            self.bits = self.bits << 32 | u64::from(u32::from_be_bytes(word));
            self.held += 32;
            self.bytes = behind;
        } else {
            for &byte in std::mem::take(&mut self.bytes) {
                self.bits = self.bits << 8 | u64::from(byte);
                self.held += 8;
            }
        }
    }

    /// The next bits, which must be there, at most 32 of them.
    fn take(&mut self, width: u32) -> usize {
        if self.held < width {
            self.hold();
        }
        self.held -= width;
        (self.bits >> self.held & ((1 << width) - 1)) as usize
    }

    /// The next 1 to 32 bits, which must be there, in two's complement.
    fn signed(&mut self, width: u32) -> i32 {
        if self.held < width {
            self.hold();
        }
        let top = self.bits << (64 - self.held);
        self.held -= width;
        (top as i64 >> (64 - width)) as i32
    }

    fn point(&mut self, width: u32) -> Point {
        Point::new(self.signed(width), self.signed(width))
    }

    /// Puts a contour behind the points, or nothing if the width is not the smallest.
    fn contour(&mut self, count: usize, width: u32, points: &mut Vec<Point>) -> Option<()> {
        let mut low = 0;
        if count > 0 {
            let mut at = self.point(32);
            points.push(at);
            points.extend((1..count).map(|_| {
                let step = self.point(width);
                low |= lower(step);
                at = Point::new(at.x.wrapping_add(step.x), at.y.wrapping_add(step.y));
                at
            }));
        }
        (width == smallest(low)).then_some(())
    }
}

/// The bits of both numbers that are not their sign's.
fn lower(step: Point) -> u32 {
    (step.x ^ step.x >> 31 | step.y ^ step.y >> 31) as u32
}

/// The smallest width that numbers with these lower bits fit.
fn smallest(low: u32) -> u32 {
    33 - low.leading_zeros()
}

/// The shape set of a file, or nothing if that is short, has bytes left over or bits set behind the last contour, has a
/// width that is not the smallest, or is of another edition. Where the points lie is not asked.
pub fn read(bytes: &[u8], set: &mut FlatShapesBuffer<i32>) -> Option<()> {
    let mut bits = Reader { bits: 0, held: 0, bytes };
    if bits.left() < 16 || bits.take(4) != 2 {
        return None;
    }
    let count = bits.take(12);
    set.clear_and_reserve(0, count, count);
    for contour in 0..count {
        if bits.left() < 22 {
            return None;
        }
        let (begins, points, width) = (bits.take(1), bits.take(15), bits.take(6));
        let need = if points == 0 { 0 } else { 64 + 2 * width * (points - 1) };
        if bits.left() < need || !(1..=32).contains(&width) {
            return None;
        }
        let start = set.points.len();
        bits.contour(points, width as u32, &mut set.points)?;
        set.contour_ranges.push(start..set.points.len());
        if begins == 1 {
            set.shape_ranges.push(contour..contour + 1);
        } else {
            set.shape_ranges.last_mut()?.end += 1;
        }
    }
    let fill = bits.left();
    (fill < 8 && bits.take(fill as u32) == 0).then_some(())
}

/// The bits behind a file's bytes, up to 31 that are held.
struct Writer<'a> {
    bits: u64,
    held: u32,
    bytes: &'a mut Vec<u8>,
}

impl Writer<'_> {
    /// Puts the last bits of a number, at most 32.
    fn put(&mut self, width: u32, number: u32) {
        self.bits = self.bits << width | u64::from(number) & ((1 << width) - 1);
        self.held += width;
        if self.held >= 32 {
            self.held -= 32;
            self.bytes.extend(((self.bits >> self.held) as u32).to_be_bytes());
        }
    }

    fn point(&mut self, width: u32, point: Point) {
        self.put(width, point.x as u32);
        self.put(width, point.y as u32);
    }

    fn contour(&mut self, points: &[Point]) {
        let steps = points.windows(2).map(|pair| Point::new(pair[1].x - pair[0].x, pair[1].y - pair[0].y));
        let width = smallest(steps.clone().fold(0, |low, step| low | lower(step)));
        self.put(6, width);
        if let Some(&first) = points.first() {
            self.point(32, first);
        }
        steps.for_each(|step| self.point(width, step));
    }

    /// Fills the last byte with zeros.
    fn close(self) {
        let word = (self.bits << (32 - self.held)) as u32;
        self.bytes.extend(&word.to_be_bytes()[..self.held.div_ceil(8) as usize]);
    }
}

/// The file of a shape set that one can carry.
pub fn write(set: &FlatShapesBuffer<i32>, bytes: &mut Vec<u8>) {
    bytes.clear();
    let mut bits = Writer { bits: 0, held: 0, bytes };
    bits.put(4, 2);
    bits.put(12, set.contour_ranges.len() as u32);
    for shape in &set.shape_ranges {
        for contour in shape.clone() {
            let points = &set.points[set.contour_ranges[contour].clone()];
            bits.put(1, u32::from(contour == shape.start));
            bits.put(15, points.len() as u32);
            bits.contour(points);
        }
    }
    bits.close();
}
