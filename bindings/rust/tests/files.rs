use ukmerelt::flat::buffer::FlatShapesBuffer;
use ukmerelt::flat::file::{Edition, Read};
use ukmerelt::{IntPoint, Refused, LIMIT, NARROW_LIMIT};

fn square(from: i32, to: i32) -> Vec<IntPoint> {
    [[from, from], [to, from], [to, to], [from, to]]
        .map(IntPoint::from)
        .to_vec()
}

#[test]
fn there_and_back() {
    let mut set = FlatShapesBuffer::default();
    set.set_with_shapes(&[
        vec![square(-8, 8), square(2, 6)],
        vec![square(10, 12), vec![]],
    ])
    .unwrap();
    let bytes = set.write_set().unwrap();
    assert_eq!(bytes.len(), 2 + 2 * 4 + 8 * 12);
    assert_eq!(bytes[..4], [0x10, 4, 0x80, 4]);
    assert_eq!(
        FlatShapesBuffer::read_set(&bytes),
        carried(Edition::One, &set)
    );
    // Four headers of 22 bits, three first points, and nine steps in 6, 4 and 3 bits.
    let bytes = set.write_set_2().unwrap();
    assert_eq!(
        bytes.len(),
        2 + (4_usize * 22 + 3 * 64 + 6 * (6 + 4 + 3)).div_ceil(8)
    );
    assert_eq!(bytes[..4], [0x20, 4, 0x80, 4]);
    assert_eq!(
        FlatShapesBuffer::read_set(&bytes),
        carried(Edition::Two, &set)
    );
}

fn carried(edition: Edition, set: &FlatShapesBuffer) -> Result<Read, Refused> {
    let set = set.clone();
    Ok(Read { edition, set })
}

#[test]
fn the_empty_set() {
    let set = FlatShapesBuffer::default();
    assert_eq!(set.write_set(), Ok(vec![0x10, 0]));
    assert_eq!(set.write_set_2(), Ok(vec![0x20, 0]));
    for (byte, edition) in [(0x10, Edition::One), (0x20, Edition::Two)] {
        assert_eq!(
            FlatShapesBuffer::read_set(&[byte, 0]),
            carried(edition, &set)
        );
    }
}

#[test]
fn damaged_files() {
    for (bytes, refused) in [
        (&[][..], Refused::Length),
        (&[0x20], Refused::Length),
        (&[0x30, 0], Refused::Edition),
        (&[0x00, 0], Refused::Edition),
        (&[0x10, 1], Refused::Length),
        (&[0x10, 1, 0, 1], Refused::NoShape),
        (&[0x10, 0, 0], Refused::Length),
        (
            &[0x10, 1, 0x80, 1, 0x7f, 0, 0, 0, 0, 0, 0, 0],
            Refused::OffGrid,
        ),
        (&[0x20, 1, 0x80, 0], Refused::Length),
        (&[0x20, 1, 0, 0, 0x04], Refused::NoShape),
        (&[0x20, 1, 0x80, 0, 0], Refused::Width),
        (&[0x20, 1, 0x80, 0, 0x08], Refused::Width),
        (&[0x20, 1, 0x80, 0, 0x05], Refused::Fill),
        (&[0x20, 1, 0x80, 0, 0x05, 0], Refused::Length),
        (
            &[0x20, 1, 0x80, 1, 0x05, 0, 0, 0, 0, 0, 0, 0, 0],
            Refused::OffGrid,
        ),
    ] {
        assert_eq!(
            FlatShapesBuffer::read_set(bytes),
            Err(refused),
            "{bytes:x?}"
        );
    }
    assert_eq!(
        FlatShapesBuffer::read_set(&vec![0; 65_537]),
        Err(Refused::TooMany)
    );
}

#[test]
fn files_of_edition_1_lie_on_the_narrow_grid() {
    let file = |number: i32| {
        let point = [number.to_be_bytes(), [0; 4]].concat();
        [vec![0x10, 1, 0x80, 1], point].concat()
    };
    for on in [NARROW_LIMIT, -NARROW_LIMIT] {
        let set = FlatShapesBuffer::read_set(&file(on)).unwrap().set;
        assert_eq!(set.points, [IntPoint::new(on, 0)]);
        assert_eq!(set.write_set(), Ok(file(on)));
    }
    for off in [NARROW_LIMIT + 1, -NARROW_LIMIT - 1, LIMIT, -LIMIT, i32::MIN] {
        let refused = Err(Refused::OffGrid);
        assert_eq!(FlatShapesBuffer::read_set(&file(off)), refused, "{off}");
    }
}

#[test]
fn a_set_that_no_file_carries() {
    let mut set = FlatShapesBuffer::default();
    set.add_shape(&[]).unwrap();
    assert_eq!(set.write_set(), Err(Refused::CantCarry));
    assert_eq!(set.write_set_2(), Err(Refused::CantCarry));
}

/// The set of one contour.
fn one(points: Vec<IntPoint>) -> FlatShapesBuffer {
    let mut set = FlatShapesBuffer::default();
    set.set_with_contour(&points).unwrap();
    set
}

#[test]
fn files_of_edition_2_go_to_the_ends_of_the_grid() {
    let ends = one(vec![
        IntPoint::new(LIMIT, -LIMIT),
        IntPoint::new(-LIMIT, LIMIT),
    ]);
    let at = Refused::OffGridAt {
        contour: 0,
        point: 0,
    };
    assert_eq!(ends.write_set(), Err(at));
    let bytes = ends.write_set_2().unwrap();
    assert_eq!(bytes.len(), 2 + (22_usize + 64 + 64).div_ceil(8));
    assert_eq!(
        FlatShapesBuffer::read_set(&bytes),
        carried(Edition::Two, &ends)
    );
}

#[test]
fn files_of_edition_2_are_short_where_steps_are() {
    // 8,192 points are over 65,536 bytes in edition 1, and 32,767 of one-bit steps are 8,205 bytes in edition 2.
    let still = one(vec![IntPoint::new(7, -8); 32_767]);
    assert_eq!(still.write_set(), Err(Refused::TooMany));
    let bytes = still.write_set_2().unwrap();
    assert_eq!(bytes.len(), 8205);
    assert_eq!(
        FlatShapesBuffer::read_set(&bytes),
        carried(Edition::Two, &still)
    );
    let ends = [IntPoint::new(LIMIT, 0), IntPoint::new(-LIMIT, 0)];
    let wild = one(ends.repeat(8_192));
    assert_eq!(wild.write_set_2(), Err(Refused::TooMany));
    assert_eq!(
        one(vec![IntPoint::ZERO; 32_768]).write_set_2(),
        Err(Refused::CantCarry)
    );
}
