//! The answers of the library, and what they say of the rows that were lent.

use crate::drawing::Place;
use crate::flat::buffer::{FlatContoursBuffer, FlatShapesBuffer};
use crate::flat::difference::{Line, RefusedSet};
use crate::flat::fate::Fate;
use crate::flat::file::{self, Dropped, Edition};
use crate::int::path::Location;
use crate::int::shape::IntContour;
use crate::refused::Refused;

#[repr(C)]
pub struct Verdict {
    reply: u32,
    yes: bool,
}

#[repr(C)]
pub struct Located {
    reply: u32,
    place: u8,
}

#[repr(C)]
pub struct Area {
    reply: u32,
    value: i64,
}

#[repr(C)]
pub struct Cleaned {
    reply: u32,
    points: usize,
    decisions: usize,
    turns: usize,
}

#[repr(C)]
pub struct CleanedSet {
    reply: u32,
    points: usize,
    contours: usize,
    shapes: usize,
    decisions: usize,
    turns: usize,
}

#[repr(C)]
pub struct Packed {
    reply: u32,
    points: usize,
    contours: usize,
    shapes: usize,
}

#[repr(C)]
pub struct Read {
    reply: u32,
    edition: u32,
    points: usize,
    contours: usize,
    shapes: usize,
}

#[repr(C)]
pub struct Written {
    reply: u32,
    bytes: usize,
}

#[repr(C)]
pub struct Salvaged {
    reply: u32,
    bytes: usize,
    dropped: usize,
    missing: usize,
    past: usize,
}

#[repr(C)]
pub struct Drawn {
    reply: u32,
    commands: usize,
    floats: usize,
}

#[repr(C)]
pub struct Compared {
    reply: u32,
    refused: u32,
    contours: usize,
}

#[repr(C)]
pub struct Counted {
    reply: u32,
    count: usize,
}

impl Counted {
    pub fn read(self) -> Result<usize, Refused> {
        Refused::read(self.reply, 0).map(|()| self.count)
    }

    /// The fates in the row that was lent, one for each contour.
    pub fn read_fates(self, fates: &[u8]) -> Result<Vec<Fate>, Refused> {
        Refused::read(self.reply, 0)?;
        Ok(fates.iter().map(Fate::read).collect())
    }
}

impl Verdict {
    pub fn read(self) -> Result<bool, Refused> {
        Refused::read(self.reply, 0).map(|()| self.yes)
    }
}

impl Located {
    pub fn read(self) -> Result<Location, Refused> {
        Refused::read(self.reply, 0).map(|()| Location::read(self.place))
    }
}

impl Area {
    pub fn read(self) -> Result<i64, Refused> {
        Refused::read(self.reply, 0).map(|()| self.value)
    }
}

impl Cleaned {
    /// The points in front of the row that was lent.
    pub fn read(self, mut out: IntContour) -> Result<crate::Cleaned<IntContour>, Refused> {
        Refused::read(self.reply, self.decisions)?;
        out.truncate(self.points);
        Ok(crate::Cleaned {
            kept: out,
            decisions: self.decisions,
            turns: self.turns,
        })
    }
}

impl CleanedSet {
    /// The contour set in front of the rows that were lent.
    pub fn read_contours(
        self,
        mut out: FlatContoursBuffer,
    ) -> Result<crate::Cleaned<FlatContoursBuffer>, Refused> {
        Refused::read(self.reply, self.decisions)?;
        out.points.truncate(self.points);
        out.ranges.truncate(self.contours);
        Ok(crate::Cleaned {
            kept: out,
            decisions: self.decisions,
            turns: self.turns,
        })
    }

    /// The shape set in front of the rows that were lent.
    pub fn read_shapes(
        self,
        mut out: FlatShapesBuffer,
    ) -> Result<crate::Cleaned<FlatShapesBuffer>, Refused> {
        Refused::read(self.reply, self.decisions)?;
        out.points.truncate(self.points);
        out.contour_ranges.truncate(self.contours);
        out.shape_ranges.truncate(self.shapes);
        Ok(crate::Cleaned {
            kept: out,
            decisions: self.decisions,
            turns: self.turns,
        })
    }
}

impl Read {
    /// The shape set in front of the rows that were lent, and the edition of its file.
    pub fn read(self, mut out: FlatShapesBuffer) -> Result<file::Read, Refused> {
        Refused::read(self.reply, 0)?;
        out.points.truncate(self.points);
        out.contour_ranges.truncate(self.contours);
        out.shape_ranges.truncate(self.shapes);
        Ok(file::Read {
            edition: Edition::read(self.edition),
            set: out,
        })
    }
}

impl Written {
    /// The file in front of the row that was lent.
    pub fn read(self, mut out: Vec<u8>) -> Result<Vec<u8>, Refused> {
        Refused::read(self.reply, 0)?;
        out.truncate(self.bytes);
        Ok(out)
    }
}

impl Salvaged {
    /// The file and the list in front of the rows that were lent.
    pub fn read(self, mut out: Vec<u8>, dropped: &[[usize; 2]]) -> Result<file::Salvaged, Refused> {
        Refused::read(self.reply, 0)?;
        out.truncate(self.bytes);
        let dropped = dropped.iter().take(self.dropped);
        Ok(file::Salvaged {
            file: out,
            dropped: dropped.map(Dropped::read).collect(),
            missing: self.missing,
            past: self.past,
        })
    }
}

impl Compared {
    /// The lines in front of the row that was lent.
    pub fn read(self, listing: &[[usize; 2]]) -> Result<Vec<Line>, RefusedSet> {
        Refused::read(self.reply, 0).map_err(|refused| RefusedSet {
            set: self.refused,
            refused,
        })?;
        let lines = listing.iter().take(self.contours);
        Ok(lines.map(Line::read).collect())
    }
}

impl Drawn {
    /// The kinds and the places in front of the rows that were lent.
    pub fn read(
        self,
        mut kinds: Vec<u8>,
        mut places: Vec<Place>,
    ) -> Result<(Vec<u8>, Vec<Place>), Refused> {
        Refused::read(self.reply, 0)?;
        kinds.truncate(self.commands);
        places.truncate(self.floats / 2);
        Ok((kinds, places))
    }
}

impl Packed {
    /// The contour set in front of the rows that were lent.
    pub fn read_contours(self, mut out: FlatContoursBuffer) -> Result<FlatContoursBuffer, Refused> {
        Refused::read(self.reply, 0)?;
        out.points.truncate(self.points);
        out.ranges.truncate(self.contours);
        Ok(out)
    }

    pub fn read(self) -> Result<(), Refused> {
        Refused::read(self.reply, 0)
    }
}
