use ukmerelt::flat::buffer::FlatShapesBuffer;
use ukmerelt::flat::file::{salvage, Dropped, Reason, Salvaged};
use ukmerelt::int::shape::{IntContour, IntShape};
use ukmerelt::{IntPoint, Refused, LIMIT, NARROW_LIMIT};

fn triangle(size: i32) -> IntContour {
    [[0, 0], [size, 0], [0, size]].map(IntPoint::from).to_vec()
}

fn file(shapes: &[IntShape]) -> Vec<u8> {
    let mut set = FlatShapesBuffer::default();
    set.set_with_shapes(shapes).unwrap();
    set.write_set().unwrap()
}

/// A shape with a hole and one without. Each contour takes 26 bytes, from the third on.
fn whole() -> Vec<u8> {
    file(&[vec![triangle(9), triangle(2)], vec![triangle(NARROW_LIMIT)]])
}

/// The file with the first coordinate of a contour off the narrow grid.
fn off(file: Vec<u8>, contour: usize) -> Vec<u8> {
    with(-NARROW_LIMIT - 1, file, contour)
}

/// The file with another first coordinate of a contour.
fn with(number: i32, mut file: Vec<u8>, contour: usize) -> Vec<u8> {
    let place = 2 + 26 * contour + 2;
    file[place..place + 4].copy_from_slice(&number.to_be_bytes());
    file
}

fn salvaged(file: Vec<u8>, dropped: &[(usize, Reason)], missing: usize, past: usize) -> Salvaged {
    let dropped = dropped.iter();
    let dropped = dropped.map(|&(contour, reason)| Dropped { contour, reason });
    Salvaged {
        file,
        dropped: dropped.collect(),
        missing,
        past,
    }
}

#[test]
fn a_sound_file_comes_back() {
    for file in [whole(), file(&[]), file(&[vec![vec![]]])] {
        assert_eq!(salvage(&file), Ok(salvaged(file, &[], 0, 0)));
    }
}

#[test]
fn a_file_cut_off() {
    let two = file(&[vec![triangle(9), triangle(2)]]);
    let rest = salvaged(two, &[], 1, 0);
    assert_eq!(salvage(&whole()[..79]), Ok(rest));
    let none = salvaged(file(&[]), &[], 3, 0);
    assert_eq!(salvage(&whole()[..2]), Ok(none));
}

#[test]
fn coordinates_off_the_grid() {
    let alone = salvaged(
        file(&[vec![triangle(9)], vec![triangle(NARROW_LIMIT)]]),
        &[(1, Reason::OffGrid)],
        0,
        0,
    );
    assert_eq!(salvage(&off(whole(), 1)), Ok(alone.clone()));
    for number in [NARROW_LIMIT + 1, LIMIT, -LIMIT, LIMIT + 1] {
        assert_eq!(salvage(&with(number, whole(), 1)), Ok(alone.clone()));
    }
    let with_its_hole = salvaged(
        file(&[vec![triangle(NARROW_LIMIT)]]),
        &[(0, Reason::OffGrid), (1, Reason::NoShape)],
        0,
        0,
    );
    assert_eq!(salvage(&off(whole(), 0)), Ok(with_its_hole));
    let all = salvaged(
        file(&[]),
        &[
            (0, Reason::OffGrid),
            (1, Reason::OffGrid),
            (2, Reason::OffGrid),
        ],
        0,
        0,
    );
    let none_on = off(off(off(whole(), 0), 1), 2);
    assert_eq!(salvage(&none_on), Ok(all));
}

#[test]
fn a_first_contour_that_begins_no_shape() {
    let mut damaged = whole();
    damaged[2] = 0;
    let rest = salvaged(
        file(&[vec![triangle(NARROW_LIMIT)]]),
        &[(0, Reason::NoShape), (1, Reason::NoShape)],
        0,
        0,
    );
    assert_eq!(salvage(&damaged), Ok(rest));
}

#[test]
fn bytes_past_the_count() {
    let longer = [whole(), vec![1, 2, 3]].concat();
    assert_eq!(salvage(&longer), Ok(salvaged(whole(), &[], 0, 3)));
}

#[test]
fn a_count_of_4095() {
    let rest = salvaged(file(&[]), &[], 4095, 0);
    assert_eq!(salvage(&[0x1f, 0xff]), Ok(rest));
    let mut holes = [vec![0x1f, 0xff], vec![0; 2 * 4095]].concat();
    let all = salvage(&holes).unwrap();
    assert_eq!(all.file, file(&[]));
    assert_eq!(all.dropped.len(), 4095);
    assert_eq!(all.dropped[4094].contour, 4094);
    holes[2] = 0x80;
    assert_eq!(salvage(&holes), Ok(salvaged(holes, &[], 0, 0)));
}

#[test]
fn what_is_salvaged_is_read() {
    let damaged = off(whole(), 0);
    for length in 2..=damaged.len() {
        let salvaged = salvage(&damaged[..length]).unwrap();
        let kept = FlatShapesBuffer::read_set(&salvaged.file).unwrap();
        let all = kept.set.contour_ranges.len() + salvaged.dropped.len() + salvaged.missing;
        assert_eq!(all, 3, "{length}");
        assert_eq!(salvage(&salvaged.file).unwrap().file, salvaged.file);
    }
}

#[test]
fn refused() {
    for (bytes, refused) in [
        (&[][..], Refused::Length),
        (&[0x20], Refused::Length),
        (&[0x20, 0], Refused::Edition),
        (&[0x10; 65_537], Refused::TooMany),
    ] {
        assert_eq!(salvage(bytes), Err(refused));
    }
}
