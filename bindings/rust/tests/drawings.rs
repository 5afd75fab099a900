use ukmerelt::drawing::Command::{Close, Line, Move};
use ukmerelt::drawing::{Command, Place};
use ukmerelt::flat::buffer::FlatContoursBuffer;
use ukmerelt::{IntPoint, Refused, LIMIT, NARROW_LIMIT};

const MOST: usize = 65_536;

fn at(x: f64, y: f64) -> Place {
    Place::new(x, y)
}

fn imported(commands: &[Command]) -> Result<FlatContoursBuffer, Refused> {
    FlatContoursBuffer::import_mm(commands)
}

fn set(points: &[[i32; 2]], ranges: &[[usize; 2]]) -> FlatContoursBuffer {
    FlatContoursBuffer {
        points: points.iter().copied().map(IntPoint::from).collect(),
        ranges: ranges.to_vec(),
    }
}

#[test]
fn a_drawing_comes_in() {
    let (a, b, c) = (at(0.0, -1.0), at(25.4, 0.25), at(1e-9, 524_288.0));
    assert_eq!(
        imported(&[Move(a), Line(b), Line(c), Close, Move(b), Move(c), Line(a)]),
        Ok(set(
            &[
                [0, -1024],
                [26_010, 256],
                [0, NARROW_LIMIT],
                [26_010, 256],
                [0, NARROW_LIMIT],
                [0, -1024]
            ],
            &[[0, 3], [3, 4], [4, 6]],
        ))
    );
    assert_eq!(imported(&[]), Ok(set(&[], &[])));
}

#[test]
fn halves_go_away_from_zero() {
    let half = 0.5 / 1024.0;
    let below = 0.49999999999999994 / 1024.0;
    let drawing = [Move(at(half, -half)), Line(at(below, 3.0 * half))];
    assert_eq!(imported(&drawing), Ok(set(&[[1, -1], [0, 2]], &[[0, 2]])));
}

#[test]
fn faulty_commands() {
    let sound = at(1.0, 2.0);
    for (commands, refused) in [
        (&[Line(sound)][..], Refused::NoDrawing),
        (&[Close], Refused::NoDrawing),
        (&[Move(sound), Close, Close], Refused::NoDrawing),
        (&[Move(sound), Close, Line(sound)], Refused::NoDrawing),
        (&[Move(at(f64::NAN, 0.0))], Refused::NotFinite),
        (&[Move(at(1e9, f64::INFINITY))], Refused::NotFinite),
        (&[Move(at(0.0, 1e9))], Refused::OffGrid),
        (&[Move(at(524_288.0 + 0.5 / 1024.0, 0.0))], Refused::OffGrid),
        (
            &[Move(at(0.0, f64::from(LIMIT) / 1024.0))],
            Refused::OffGrid,
        ),
        (
            &[Move(at(1e308, 0.0)), Line(at(f64::NAN, 0.0))],
            Refused::OffGrid,
        ),
        (
            &[Move(sound), Line(at(0.0, f64::NAN)), Close, Close],
            Refused::NotFinite,
        ),
    ] {
        assert_eq!(imported(commands), Err(refused), "{commands:?}");
    }
}

#[test]
fn rows_as_they_arrive() {
    let rows = FlatContoursBuffer::import_mm_rows;
    assert_eq!(
        rows(&[0, 1, 2, 0], &[1.0, 2.0, 3.0, 4.0, 0.5, -0.5]),
        Ok(set(
            &[[1024, 2048], [3072, 4096], [512, -512]],
            &[[0, 2], [2, 3]]
        ))
    );
    for (kinds, floats) in [
        (&[0][..], &[][..]),
        (&[0], &[1.0]),
        (&[0], &[1.0; 3]),
        (&[], &[1.0; 2]),
        (&[0, 0, 0], &[1.0; 2]),
        (&[0, 7], &[f64::NAN; 4]),
        (&[0, 7], &[1.0; 2]),
    ] {
        assert_eq!(rows(kinds, floats), Err(Refused::NoDrawing), "{kinds:?}");
    }
    assert_eq!(rows(&[0, 7], &[f64::NAN, 1.0]), Err(Refused::NotFinite));
    assert_eq!(
        rows(&[0; MOST + 1], &[0.0; 2 * MOST + 2]),
        Err(Refused::TooMany)
    );
    assert_eq!(
        rows(&[0; MOST + 1], &[1e9; 2 * MOST + 2]),
        Err(Refused::OffGrid)
    );
    assert_eq!(
        rows(&[0; MOST], &[0.0; 2 * MOST + 2]),
        Err(Refused::NoDrawing)
    );
    assert!(rows(&[0; MOST], &[0.0; 2 * MOST]).is_ok());
}

#[test]
fn the_way_back() {
    let contours = set(
        &[[1024, -512], [0, 1], [2, 3]],
        &[[0, 0], [0, 1], [1, 1], [1, 3]],
    );
    let unit = 1.0 / 1024.0;
    let drawing = [
        Move(at(1.0, -0.5)),
        Close,
        Move(at(0.0, unit)),
        Line(at(2.0 * unit, 3.0 * unit)),
        Close,
    ];
    assert_eq!(contours.export_mm(), Ok(drawing.to_vec()));
    assert_eq!(
        imported(&drawing),
        Ok(set(&[[1024, -512], [0, 1], [2, 3]], &[[0, 1], [1, 3]]))
    );
    assert_eq!(set(&[], &[]).export_mm(), Ok(vec![]));
    assert_eq!(set(&[[1, 2]], &[]).export_mm(), Err(Refused::Ranges));
    assert_eq!(
        set(&[[1, 2]], &[[0, 1]; 5]).export_mm(),
        Err(Refused::Ranges)
    );
    for off in [NARROW_LIMIT + 1, -NARROW_LIMIT - 1, LIMIT, -LIMIT] {
        assert_eq!(
            set(&[[1, off]], &[[0, 1]]).export_mm(),
            Err(Refused::OffGridAt {
                contour: 0,
                point: 0,
            })
        );
    }
}

/// Contours of two points each.
fn long(points: usize) -> Vec<Command> {
    let pair = [Move(at(1.0, 2.0)), Line(at(-1.0, 0.5)), Close];
    pair.repeat(points / 2)
}

#[test]
fn as_many_points_as_there_may_be() {
    let set = imported(&long(MOST)).unwrap();
    assert_eq!((set.points.len(), set.ranges.len()), (MOST, MOST / 2));
    assert_eq!(set.export_mm(), Ok(long(MOST)));
    let apart = imported(&[Move(at(0.0, 0.0)), Close].repeat(MOST)).unwrap();
    assert_eq!(apart.ranges.len(), MOST);
    assert_eq!(imported(&apart.export_mm().unwrap()), Ok(apart));
}

/// Faults that come behind more points than there may be come first, wherever they stand.
#[test]
fn a_fault_comes_before_too_many_points() {
    let sound = at(1.0, 2.0);
    let many = long(MOST + 4000);
    assert_eq!(imported(&many), Err(Refused::TooMany));
    for place in [0, 1, 1023, 1024, 1025, 2048, 60_000, many.len()] {
        for (commands, refused) in [
            (&[Move(at(f64::NAN, 0.0))][..], Refused::NotFinite),
            (&[Move(sound), Line(at(0.0, -1e6))], Refused::OffGrid),
            (&[Move(sound), Close, Line(sound)], Refused::NoDrawing),
            (&[Move(sound), Close, Close], Refused::NoDrawing),
        ] {
            let faulty = [&many[..place], commands, &many[place..]].concat();
            assert_eq!(imported(&faulty), Err(refused), "{refused} at {place}");
        }
    }
    let open = [vec![Move(sound)], vec![Line(sound); 3 * MOST]].concat();
    assert_eq!(imported(&open), Err(Refused::TooMany));
    let closed = [vec![Move(sound)], vec![Close; 3 * MOST]].concat();
    assert_eq!(imported(&closed), Err(Refused::NoDrawing));
}
