//! Drawings in millimetres: outlines as commands, brought onto the grid as contours, and given back.
//!
//! A millimetre is 1,024 units of the grid. Drawings lie on the narrow grid, which ends at
//! [`NARROW_LIMIT`], 524,288 mm either side of 0. A coordinate becomes the whole number nearest to
//! 1,024 times its exact value, halves away from zero.
//!
//! ```
//! use ukmerelt::drawing::{Command, Place};
//! use ukmerelt::flat::buffer::FlatContoursBuffer;
//! use ukmerelt::{IntPoint, Refused};
//!
//! # fn main() -> Result<(), Refused> {
//! let drawing = [
//!     Command::Move(Place::new(0.0, 0.0)),
//!     Command::Line(Place::new(25.4, 0.0)),
//!     Command::Line(Place::new(0.0, 12.5)),
//!     Command::Close,
//! ];
//! let set = FlatContoursBuffer::import_mm(&drawing)?;
//! assert_eq!(set.points, [[0, 0], [26010, 0], [0, 12800]].map(IntPoint::from));
//! assert_eq!(set.ranges, [[0, 3]]);
//! assert_eq!(set.export_mm()?[1], Command::Line(Place::new(25.400390625, 0.0)));
//! # Ok(())
//! # }
//! ```

use crate::flat::buffer::FlatContoursBuffer;
use crate::library::{self, MOST};
use crate::refused::{At, Refused};
use crate::NARROW_LIMIT;

/// A place in millimetres.
#[repr(C)]
#[derive(Debug, Clone, Copy, PartialEq, Default)]
pub struct Place {
    /// To the right.
    pub x: f64,
    /// Upward.
    pub y: f64,
}

impl Place {
    /// The place x, y.
    pub const fn new(x: f64, y: f64) -> Self {
        Place { x, y }
    }
}

/// A command of a drawing.
#[derive(Debug, Clone, Copy, PartialEq)]
pub enum Command {
    /// Ends an open contour and begins one.
    Move(Place),
    /// Adds a point to the open contour.
    Line(Place),
    /// Ends the open contour, as the end of the drawing does.
    Close,
}

impl Command {
    fn kind(self) -> u8 {
        match self {
            Command::Move(_) => 0,
            Command::Line(_) => 1,
            Command::Close => 2,
        }
    }

    fn place(self) -> Option<Place> {
        match self {
            Command::Move(place) | Command::Line(place) => Some(place),
            Command::Close => None,
        }
    }
}

impl FlatContoursBuffer {
    /// The contours of a drawing. Refused by the first faulty command, as `NoDrawing` (a Line or Close with nothing
    /// open), `NotFinite` or `OffGrid`; then as `TooMany`.
    pub fn import_mm(commands: &[Command]) -> Result<Self, Refused> {
        let places = commands.iter().filter_map(|command| command.place());
        let points = places.clone().count();
        // A drawing without a fault closes no more often than it begins.
        if points > MOST || commands.len() > 2 * MOST {
            return Err(first_refusal(commands));
        }
        let kinds: Vec<u8> = commands.iter().map(|command| command.kind()).collect();
        let places: Vec<Place> = places.collect();
        let mut set = FlatContoursBuffer::rows(points, contours(&kinds))?;
        library::import_mm(&kinds, &places, &mut set.points, &mut set.ranges).read_contours(set)
    }

    /// The contours of a drawing that comes in two rows: kinds, 0 for Move, 1 for Line and 2 for Close, and two floats,
    /// x and y, for each Move and Line. Refused as `NoDrawing` where the lengths don't match, then as `import_mm` is,
    /// with `NoDrawing` for any other kind.
    pub fn import_mm_rows(kinds: &[u8], floats: &[f64]) -> Result<Self, Refused> {
        let points = floats.len() / 2;
        // With too many points the library finds the refusal, and needs no room for that. With more contours than points
        // the lengths don't match.
        let (points, contours) = match points {
            0..=MOST => (points, contours(kinds).min(points)),
            _ => (0, 0),
        };
        let mut set = FlatContoursBuffer::rows(points, contours)?;
        library::import_mm(kinds, floats, &mut set.points, &mut set.ranges).read_contours(set)
    }

    /// The drawing of the set: each contour as a Move, Lines and a Close, an empty one as nothing. That loses nothing
    /// else: [`import_mm`](Self::import_mm) gives the same contours back. Refused as `OffGridAt` where a coordinate is
    /// beyond [`NARROW_LIMIT`].
    pub fn export_mm(&self) -> Result<Vec<Command>, Refused> {
        let points = self.points.len();
        library::at_most(points)?;
        // No more contours have points than there are points.
        let mut kinds = vec![0; 2 * points];
        let mut places = vec![Place::default(); points];
        let drawn = library::export_mm(&self.points, &self.ranges, &mut kinds, &mut places);
        let drawn = drawn.read(kinds, places);
        let (kinds, places) = drawn.at(&self.points, &self.ranges, NARROW_LIMIT)?;
        let mut places = places.into_iter();
        let mut next = || places.next().unwrap_or_default();
        let command = |kind| match kind {
            0 => Command::Move(next()),
            1 => Command::Line(next()),
            _ => Command::Close,
        };
        Ok(kinds.into_iter().map(command).collect())
    }
}

/// How many contours the kinds begin.
fn contours(kinds: &[u8]) -> usize {
    kinds.iter().filter(|kind| **kind == 0).count()
}

/// Commands go to the library in pieces of so many, where they are too many to be laid out.
const PIECE: usize = 1024;

/// Why commands are refused that have too many points, or else a fault. The library is asked about one piece after the
/// other, and lent no room, so that nothing is allocated: what it says of the first that has a fault is what it says of
/// them all.
fn first_refusal(commands: &[Command]) -> Refused {
    let mut open = false;
    for piece in commands.chunks(PIECE) {
        let before = open.then_some(Command::Move(Place::default()));
        match asked(before.iter().chain(piece)) {
            Ok(()) | Err(Refused::Room) => open = piece.last() != Some(&Command::Close),
            Err(fault) => return fault,
        }
    }
    Refused::TooMany
}

/// What the library says of a piece, with no room for its points.
fn asked<'a>(commands: impl Iterator<Item = &'a Command>) -> Result<(), Refused> {
    let mut kinds = [0; PIECE + 1];
    let mut places = [Place::default(); PIECE + 1];
    let (mut count, mut points) = (0, 0);
    for command in commands {
        kinds[count] = command.kind();
        count += 1;
        if let Some(place) = command.place() {
            places[points] = place;
            points += 1;
        }
    }
    library::import_mm(&kinds[..count], &places[..points], &mut [], &mut []).read()
}
