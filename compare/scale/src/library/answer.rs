//! The answers of the library, field by field.

#[repr(C)]
#[derive(Debug, PartialEq, Eq)]
pub struct Verdict {
    pub reply: u32,
    pub yes: bool,
}

#[repr(C)]
#[derive(Debug, PartialEq, Eq)]
pub struct Located {
    pub reply: u32,
    pub place: u8,
}

#[repr(C)]
#[derive(Debug, PartialEq, Eq)]
pub struct Area {
    pub reply: u32,
    pub value: i64,
}

#[repr(C)]
#[derive(Debug, PartialEq, Eq)]
pub struct Cleaned {
    pub reply: u32,
    pub points: usize,
    pub decisions: usize,
    pub turns: usize,
}

#[repr(C)]
#[derive(Debug, PartialEq, Eq)]
pub struct CleanedSet {
    pub reply: u32,
    pub points: usize,
    pub contours: usize,
    pub shapes: usize,
    pub decisions: usize,
    pub turns: usize,
}

#[repr(C)]
#[derive(Debug, PartialEq, Eq)]
pub struct Packed {
    pub reply: u32,
    pub points: usize,
    pub contours: usize,
    pub shapes: usize,
}

#[repr(C)]
#[derive(Debug, PartialEq, Eq)]
pub struct Read {
    pub reply: u32,
    pub edition: u32,
    pub points: usize,
    pub contours: usize,
    pub shapes: usize,
}

#[repr(C)]
#[derive(Debug, PartialEq, Eq)]
pub struct Written {
    pub reply: u32,
    pub bytes: usize,
}

#[repr(C)]
#[derive(Clone, Copy, Debug, PartialEq, Eq)]
pub struct Salvaged {
    pub reply: u32,
    pub bytes: usize,
    pub dropped: usize,
    pub missing: usize,
    pub past: usize,
}

#[repr(C)]
#[derive(Debug, PartialEq, Eq)]
pub struct Drawn {
    pub reply: u32,
    pub commands: usize,
    pub floats: usize,
}

#[repr(C)]
#[derive(Debug, PartialEq, Eq)]
pub struct Counted {
    pub reply: u32,
    pub count: usize,
}

#[repr(C)]
#[derive(Debug, PartialEq, Eq)]
pub struct Compared {
    pub reply: u32,
    pub refused: u32,
    pub contours: usize,
}
