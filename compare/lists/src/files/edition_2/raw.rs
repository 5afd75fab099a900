//! Contours as a file of edition 2 has them, whatever they are, and files changed bit by bit.

use crate::point::Point;
use requests::bits::BitWriter;
use requests::edition_2::{smallest_width, HEADER};

/// A place that may lie anywhere.
pub type Place = [i64; 2];

/// A contour, which begins a shape or not. Its differences are written in so many of their last bits.
#[derive(Clone, Debug)]
pub struct Contour {
    pub begins: bool,
    pub width: usize,
    pub places: Vec<Place>,
}

impl Contour {
    /// With the smallest width.
    pub fn new(begins: bool, places: &[Place]) -> Contour {
        Contour {
            begins,
            width: smallest_width(&differences(places)),
            places: places.to_vec(),
        }
    }

    pub fn of_points(begins: bool, points: &[Point]) -> Contour {
        let places: Vec<Place> = points.iter().map(|point| point.map(i64::from)).collect();
        Contour::new(begins, &places)
    }

    /// The same contour, written in another width.
    pub fn in_width(&self, width: usize) -> Contour {
        let contour = self.clone();
        Contour { width, ..contour }
    }

    /// How many bits it takes.
    fn bits(&self) -> usize {
        match self.places.len() {
            0 => HEADER,
            count => HEADER + 64 + 2 * (count - 1) * self.width,
        }
    }
}

fn differences(places: &[Place]) -> Vec<Place> {
    let difference = |pair: &[Place]| [pair[1][0] - pair[0][0], pair[1][1] - pair[0][1]];
    places.windows(2).map(difference).collect()
}

/// The file of these contours.
pub fn file_of(contours: &[Contour]) -> Vec<u8> {
    let mut bits = BitWriter::default();
    bits.push(4, 2);
    bits.push(12, contours.len() as u32);
    for contour in contours {
        bits.push(1, contour.begins.into());
        bits.push(15, contour.places.len() as u32);
        bits.push(6, contour.width as u32);
        for &number in contour.places.iter().take(1).flatten() {
            bits.push_signed(32, number);
        }
        for number in differences(&contour.places).concat() {
            bits.push_signed(contour.width, number);
        }
    }
    bits.into_file()
}

/// The file of one contour.
pub fn one(contour: &Contour) -> Vec<u8> {
    file_of(std::slice::from_ref(contour))
}

/// At which bit the header of each contour stands, and behind them where the fill begins.
pub fn headers(contours: &[Contour]) -> Vec<usize> {
    let mut places = vec![16];
    for contour in contours {
        places.push(places[places.len() - 1] + contour.bits());
    }
    places
}

/// The file with the bit at a place turned over.
pub fn turned(file: &[u8], place: usize) -> Vec<u8> {
    let mut file = file.to_vec();
    file[place / 8] ^= 0x80 >> (place % 8);
    file
}

/// The file with the number in so many bits from a place on.
pub fn with_field(file: &[u8], place: usize, width: usize, number: usize) -> Vec<u8> {
    let mut file = file.to_vec();
    for bit in 0..width {
        let mask = 0x80 >> ((place + bit) % 8);
        file[(place + bit) / 8] &= !mask;
        if number >> (width - 1 - bit) & 1 == 1 {
            file[(place + bit) / 8] |= mask;
        }
    }
    file
}

/// The count of points in a header, and the width behind it.
pub fn with_count(file: &[u8], header: usize, count: usize) -> Vec<u8> {
    with_field(file, header + 1, 15, count)
}

pub fn with_width(file: &[u8], header: usize, width: usize) -> Vec<u8> {
    with_field(file, header + 16, 6, width)
}

/// The first bits of a file, with zero bits behind them in the last byte.
pub fn first_bits(file: &[u8], bits: usize) -> Vec<u8> {
    let mut file = file[..bits.div_ceil(8)].to_vec();
    if let (Some(last), part @ 1..) = (file.last_mut(), bits % 8) {
        *last &= !(0xff >> part);
    }
    file
}
