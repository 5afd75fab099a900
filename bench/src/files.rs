//! Set files read, written and mended, beside plain Rust. `BENCH_FILES` names a folder to put files into, each by its
//! kind's name, for the programs that list one.

use crate::flat::Flat;
use crate::inputs;
use crate::linked::call;
use crate::plain::{self, Lost};
use crate::plain_2;
use crate::table::line;
use i_shape::flat::buffer::FlatShapesBuffer;
use i_shape::int::shape::IntShapes;
use std::hint::black_box;
use std::path::PathBuf;

/// An edition: what reads and writes it in plain Rust, and our writer of it, with its name. Our reader takes both.
struct Edition {
    read: fn(&[u8], &mut FlatShapesBuffer<i32>) -> Option<()>,
    write: fn(&FlatShapesBuffer<i32>, &mut Vec<u8>),
    name: &'static str,
    ours: fn(&Flat, &mut [u8]) -> usize,
}

static EDITION_1: Edition = Edition {
    read: plain::read,
    write: plain::write,
    name: "write_set",
    ours: |Flat { points, contours, shapes }, out| call!(ukm_write_set(points, contours, shapes; out;)).bytes,
};

static EDITION_2: Edition = Edition {
    read: plain_2::read,
    write: plain_2::write,
    name: "write_set_2",
    ours: |Flat { points, contours, shapes }, out| call!(ukm_write_set_2(points, contours, shapes; out;)).bytes,
};

/// A kind of file: its name, its edition, and its bytes.
pub struct Kind {
    pub name: String,
    edition: &'static Edition,
    bytes: Vec<u8>,
}

fn file(name: &str, edition: &'static Edition, shapes: IntShapes<i32>) -> Kind {
    let (mut set, mut bytes) = (FlatShapesBuffer::default(), vec![]);
    set.set_with_shapes(&shapes);
    (edition.write)(&set, &mut bytes);
    assert!(bytes.len() <= 65_536);
    Kind { name: name.into(), edition, bytes }
}

fn boxes(name: &str, edition: &'static Edition) -> Kind {
    let boxes = inputs::boxes(521288629, 1927);
    file(name, edition, boxes.into_iter().map(|contour| vec![contour]).collect())
}

fn boxes_1() -> Kind {
    boxes("file of 1927 boxes", &EDITION_1)
}

/// Files of edition 1 that the reader takes, as long as a file may be.
pub fn sound() -> [Kind; 3] {
    let circle = file("file of 8191, circle", &EDITION_1, vec![vec![inputs::circle(8191)]]);
    [circle, file("file of 58 shapes, mixed", &EDITION_1, inputs::job(58, false)), boxes_1()]
}

/// As many points in files of edition 2: a circle whose differences take 12 bits, and the same shapes and boxes.
pub fn sound_2() -> [Kind; 3] {
    let circle = file("file 2 of 8191, circle", &EDITION_2, vec![vec![inputs::circle_of(2.0e6, 8191)]]);
    let width = circle.bytes[4] >> 2;
    assert_eq!(width, 12);
    let shapes = file("file 2 of 58 shapes, mixed", &EDITION_2, inputs::job(58, false));
    [circle, shapes, boxes("file 2 of 1927 boxes", &EDITION_2)]
}

/// One of which a tenth of the points go, for a listing.
pub fn straight() -> Kind {
    let contour = inputs::with_straight(inputs::stairs, 8191, 10);
    file("file of 8191, 10 % straight", &EDITION_1, vec![vec![contour]])
}

/// Boxes of which half are cut off, and boxes of which every tenth is off the grid.
pub fn damaged() -> [Kind; 2] {
    let Kind { name, edition, mut bytes } = boxes_1();
    let half = bytes[..bytes.len() / 2].to_vec();
    for contour in bytes[2..].chunks_exact_mut(34).step_by(10) {
        contour[2] = 0x7f;
    }
    let kind = |what: &str, bytes| Kind { name: format!("{name}, {what}"), edition, bytes };
    [kind("cut", half), kind("off grid", bytes)]
}

fn reading(kind: &Kind, set: &Flat) {
    let mut out = set.room();
    let mut buffer = FlatShapesBuffer::default();
    line(
        &kind.name,
        "read_set",
        set.count(),
        &mut || {
            (kind.edition.read)(black_box(&kind.bytes), &mut buffer).expect("a sound file");
            buffer.points.len() as i64
        },
        &mut || {
            let bytes = black_box(&kind.bytes);
            call!(ukm_read_set(bytes; out.points, out.contours, out.shapes;)).points as i64
        },
    );
    assert_eq!(Flat::from(&buffer), out, "read_set differs on {}", kind.name);
}

fn writing(kind: &Kind, buffer: &FlatShapesBuffer<i32>, set: &Flat) {
    let edition = kind.edition;
    let (mut plain, mut out) = (vec![], vec![0; kind.bytes.len()]);
    line(
        &kind.name,
        edition.name,
        set.count(),
        &mut || {
            (edition.write)(black_box(buffer), &mut plain);
            plain.len() as i64
        },
        &mut || (edition.ours)(black_box(set), &mut out) as i64,
    );
    assert_eq!((&plain, &out), (&kind.bytes, &kind.bytes), "{} differs on {}", edition.name, kind.name);
}

/// A line for the mending of a file, sound or not; its points are those that would fill it.
pub fn mending(kind: &Kind) {
    let (mut plain, mut out) = (vec![], vec![0; kind.bytes.len()]);
    let (mut lost, mut dropped) = (Lost::default(), vec![[0; 2]; 4095]);
    let mut mend = || {
        let bytes = black_box(&kind.bytes);
        call!(ukm_salvage(bytes; out, dropped;))
    };
    line(
        &kind.name,
        "salvage",
        kind.bytes.len() / 8,
        &mut || {
            plain::mend(black_box(&kind.bytes), &mut plain, &mut lost).expect("a file of edition 1");
            plain.len() as i64
        },
        &mut || mend().bytes as i64,
    );
    let mended = mend();
    dropped.truncate(mended.dropped);
    out.truncate(mended.bytes);
    let ours = Lost { dropped, missing: mended.missing, past: mended.past };
    assert_eq!((plain, lost), (out, ours), "salvage differs on {}", kind.name);
}

/// The lines of a sound file, read and written.
pub fn lines(kind: &Kind) {
    let mut buffer = FlatShapesBuffer::default();
    (kind.edition.read)(&kind.bytes, &mut buffer).expect("a sound file");
    let set = Flat::from(&buffer);
    reading(kind, &set);
    writing(kind, &buffer, &set);
}

/// Puts the file into the folder, by its kind's name.
pub fn put(kind: &Kind) {
    if let Some(folder) = std::env::var_os("BENCH_FILES") {
        let path = PathBuf::from(folder).join(&kind.name);
        std::fs::write(path, &kind.bytes).expect("the file is written");
    }
}
