use crate::int::point::IntPoint;
use std::error::Error;
use std::fmt;

/// Why there is no answer: the library's reply, where it is not 0.
///
/// `{:?}` prints the same words as `{}`, since that is what a `main` that answers a `Result` shows to a person.
#[derive(Clone, Copy, PartialEq, Eq)]
#[non_exhaustive]
pub enum Refused {
    /// 1: an odd count of coordinates.
    Odd,
    /// 2: over 65,536 points, or a file of over 65,536 bytes.
    TooMany,
    /// 3: the asked point, or a coordinate of a file or a drawing, or of what is added to a set, is beyond
    /// [`LIMIT`](crate::LIMIT), or [`NARROW_LIMIT`](crate::NARROW_LIMIT) where that is the grid.
    OffGrid,
    /// 3 too: this point of the contour or the set is.
    OffGridAt {
        /// Which contour has it, from 0; 0 for a contour by itself.
        contour: usize,
        /// Which of its points it is, from 0.
        point: usize,
    },
    /// 4: a scratch row with fewer entries than there are points.
    Scratch,
    /// 5: an output row that is too short; for a program, over 8,192 points.
    Room,
    /// 6: ranges that are not sound.
    Ranges,
    /// 7. Every turn of a walk that collapses decides, so there are as many.
    Collapsed {
        /// How many the walk made.
        decisions: usize,
    },
    /// 8: the area or the winding of an empty contour, or the area of a set that has one.
    Empty,
    /// 9: the file's edition is neither 1 nor 2, or, to be salvaged, not 1.
    Edition,
    /// 10: the file ends too soon, or has bytes left over.
    Length,
    /// 11: the file's first contour begins no shape.
    NoShape,
    /// 12: no file carries it: over 4,095 contours, over 32,767 points in one, or an empty shape.
    CantCarry,
    /// 13: kinds and floats whose lengths don't match, no kind, or a Line or Close with nothing open.
    NoDrawing,
    /// 14: a place that is a NaN or an infinity.
    NotFinite,
    /// 15: the file has a contour in another width than the smallest.
    Width,
    /// 16: the file's last byte is not filled up with zero bits.
    Fill,
    /// 17: the press's points would pass the pool less the other's part.
    Full,
    /// 18: the press has no contour left to remove.
    NoneLeft,
    /// A number that a later library has, and that this crate has no name for.
    Unknown {
        /// The number.
        reply: u32,
    },
}

impl Refused {
    /// The reply's number.
    pub fn number(self) -> u32 {
        match self {
            Refused::Odd => 1,
            Refused::TooMany => 2,
            Refused::OffGrid | Refused::OffGridAt { .. } => 3,
            Refused::Scratch => 4,
            Refused::Room => 5,
            Refused::Ranges => 6,
            Refused::Collapsed { .. } => 7,
            Refused::Empty => 8,
            Refused::Edition => 9,
            Refused::Length => 10,
            Refused::NoShape => 11,
            Refused::CantCarry => 12,
            Refused::NoDrawing => 13,
            Refused::NotFinite => 14,
            Refused::Width => 15,
            Refused::Fill => 16,
            Refused::Full => 17,
            Refused::NoneLeft => 18,
            Refused::Unknown { reply } => reply,
        }
    }

    /// Where a coordinate is off the grid, the first point of these contours of which one is beyond the limit, if any is.
    pub(crate) fn at(self, points: &[IntPoint], ranges: &[[usize; 2]], limit: i32) -> Refused {
        let beyond = |number: i32| number.unsigned_abs() > limit.unsigned_abs();
        let off = |point: &IntPoint| beyond(point.x) || beyond(point.y);
        let place = match self {
            Refused::OffGrid => points.iter().position(off),
            _ => None,
        };
        let Some(place) = place else { return self };
        let within = |&[start, end]: &[usize; 2]| (start..end).contains(&place);
        match ranges.iter().position(within) {
            Some(contour) => Refused::OffGridAt {
                contour,
                point: place - ranges[contour][0],
            },
            None => self,
        }
    }

    /// Reads a reply of the library; `decisions` is what came with it, 0 where the call makes none.
    pub(crate) fn read(reply: u32, decisions: usize) -> Result<(), Refused> {
        Err(match reply {
            0 => return Ok(()),
            1 => Refused::Odd,
            2 => Refused::TooMany,
            3 => Refused::OffGrid,
            4 => Refused::Scratch,
            5 => Refused::Room,
            6 => Refused::Ranges,
            7 => Refused::Collapsed { decisions },
            8 => Refused::Empty,
            9 => Refused::Edition,
            10 => Refused::Length,
            11 => Refused::NoShape,
            12 => Refused::CantCarry,
            13 => Refused::NoDrawing,
            14 => Refused::NotFinite,
            15 => Refused::Width,
            16 => Refused::Fill,
            17 => Refused::Full,
            18 => Refused::NoneLeft,
            reply => Refused::Unknown { reply },
        })
    }
}

impl fmt::Display for Refused {
    fn fmt(&self, f: &mut fmt::Formatter<'_>) -> fmt::Result {
        f.write_str(match self {
            Refused::Odd => "an odd count of coordinates",
            Refused::TooMany => "over 65,536 points, or a file of over 65,536 bytes",
            Refused::OffGrid => "a coordinate beyond 1,073,741,823 either side of 0; of an edition 1 file or a drawing, beyond 536,870,912",
            Refused::OffGridAt { contour, point } => {
                return write!(f, "contour {contour}, point {point}: {}", Refused::OffGrid);
            }
            Refused::Scratch => "a scratch row with fewer entries than there are points",
            Refused::Room => "an output row that is too short; for a program, over 8,192 points",
            Refused::Ranges => "ranges that are not sound",
            Refused::Collapsed { decisions } => {
                return write!(
                    f,
                    "collapsed: fewer than three points would stay (decisions made: {decisions})"
                );
            }
            Refused::Empty => "the area or the winding of an empty contour, or the area of a set that has one",
            Refused::Edition => "the file's edition is neither 1 nor 2, or, to be salvaged, not 1",
            Refused::Length => "the file ends too soon, or has bytes left over",
            Refused::NoShape => "the file's first contour begins no shape",
            Refused::CantCarry => "no file carries it: over 4,095 contours, over 32,767 points in one, or an empty shape",
            Refused::NoDrawing => "kinds and floats whose lengths don't match, no kind, or a Line or Close with nothing open",
            Refused::NotFinite => "a place that is a NaN or an infinity",
            Refused::Width => "the file has a contour in another width than the smallest",
            Refused::Fill => "the file's last byte is not filled up with zero bits",
            Refused::Full => "the press's points would pass the pool less the other's part",
            Refused::NoneLeft => "the press has no contour left to remove",
            Refused::Unknown { reply } => {
                return write!(f, "the library's reply {reply}, which has no words here");
            }
        })
    }
}

/// What is said of an answer's refusal.
pub(crate) trait At {
    /// See [`Refused::at`].
    fn at(self, points: &[IntPoint], ranges: &[[usize; 2]], limit: i32) -> Self;
}

impl<T> At for Result<T, Refused> {
    fn at(self, points: &[IntPoint], ranges: &[[usize; 2]], limit: i32) -> Self {
        self.map_err(|refused| refused.at(points, ranges, limit))
    }
}

impl fmt::Debug for Refused {
    fn fmt(&self, f: &mut fmt::Formatter<'_>) -> fmt::Result {
        fmt::Display::fmt(self, f)
    }
}

impl Error for Refused {}

#[cfg(test)]
mod tests {
    use super::Refused;

    #[test]
    fn every_number_is_read_back() {
        assert_eq!(Refused::read(0, 0), Ok(()));
        for reply in 1..=u32::from(u8::MAX) {
            assert_eq!(Refused::read(reply, 0).map_err(Refused::number), Err(reply));
        }
    }

    /// The words of a reply in the C header's table, which the launcher says too.
    fn words_in_header(reply: u32) -> Option<&'static str> {
        let header = include_str!("../../c/ukmerelt.h");
        let start = format!("X({reply}, UKM_");
        let line = header
            .lines()
            .find(|line| line.trim_start().starts_with(&start))?;
        line.split('"').nth(1)
    }

    #[test]
    fn words_are_the_headers() {
        for reply in 1..=18 {
            let said = Refused::read(reply, 5).unwrap_err().to_string();
            let words = said.strip_suffix(" (decisions made: 5)").unwrap_or(&said);
            assert_eq!(Some(words), words_in_header(reply));
        }
        assert_eq!(words_in_header(0), Some("done"));
        assert_eq!(words_in_header(22), None);
    }

    #[test]
    fn the_version_is_the_headers() {
        let version = format!("#define UKM_VERSION \"{}\"", env!("CARGO_PKG_VERSION"));
        let header = include_str!("../../c/ukmerelt.h");
        assert!(header.lines().any(|line| line == version));
    }

    #[test]
    fn debug_is_words() {
        for reply in 1..=19 {
            let refused = Refused::read(reply, 0).unwrap_err();
            assert_eq!(format!("{refused:?}"), refused.to_string());
            assert!(refused.to_string().contains(' '));
        }
    }

    #[test]
    fn a_number_without_words_is_printed() {
        let refused = Refused::read(99, 0).unwrap_err();
        assert_eq!(refused, Refused::Unknown { reply: 99 });
        assert_eq!(
            refused.to_string(),
            "the library's reply 99, which has no words here"
        );
    }
}
