//! Two sets compared.

use ukmerelt::flat::buffer::FlatContoursBuffer;
use ukmerelt::flat::difference::{Line, RefusedSet};
use ukmerelt::{IntPoint, Refused, LIMIT};

fn set(contours: &[&[[i32; 2]]]) -> FlatContoursBuffer {
    let mut set = FlatContoursBuffer::default();
    for contour in contours {
        let start = set.points.len();
        set.points
            .extend(contour.iter().map(|&point| IntPoint::from(point)));
        set.ranges.push([start, set.points.len()]);
    }
    set
}

const SQUARE: [[i32; 2]; 4] = [[0, 0], [4, 0], [4, 4], [0, 4]];
const TURNED: [[i32; 2]; 4] = [[4, 4], [0, 4], [0, 0], [4, 0]];
const MOVED: [[i32; 2]; 4] = [[0, 0], [4, 0], [4, 5], [0, 4]];

#[test]
fn each_contour_is_told_by_its_number() {
    let before = set(&[&SQUARE, &SQUARE, &SQUARE, &SQUARE, &[], &SQUARE]);
    let after = set(&[&SQUARE, &TURNED, &MOVED, &SQUARE[..3], &[]]);
    let lines = [
        Line::Same,
        Line::Elsewhere { start: 2 },
        Line::Different { point: 2 },
        Line::Different { point: 3 },
        Line::Same,
        Line::OnlyFirst,
    ];
    assert_eq!(before.compare(&after), Ok(lines.to_vec()));
    assert_eq!(after.compare(&before).unwrap()[5], Line::OnlySecond);
    assert_eq!(before.compare(&before), Ok(vec![Line::Same; 6]));
    let none = FlatContoursBuffer::default();
    assert_eq!(none.compare(&none), Ok(vec![]));
}

#[test]
fn a_refusal_says_whose_set_it_is() {
    let sound = set(&[&SQUARE]);
    let off = set(&[&[[0, LIMIT + 1]]]);
    let loose = FlatContoursBuffer {
        ranges: vec![],
        ..sound.clone()
    };
    let many = set(&[&vec![[5, 6]; 65_537]]);
    let refused = |set, refused| Err(RefusedSet { set, refused });
    assert_eq!(
        off.compare(&many),
        refused(
            1,
            Refused::OffGridAt {
                contour: 0,
                point: 0,
            }
        )
    );
    assert_eq!(sound.compare(&many), refused(2, Refused::TooMany));
    assert_eq!(sound.compare(&loose), refused(2, Refused::Ranges));
    assert_eq!(loose.compare(&off), refused(1, Refused::Ranges));
    let words = RefusedSet {
        set: 2,
        refused: Refused::Ranges,
    };
    assert_eq!(
        words.to_string(),
        "of the second set: ranges that are not sound"
    );
}

#[test]
fn long_contours_that_repeat_are_told_at_once() {
    let count = 65_536;
    let mut one = vec![[0, 0]; count];
    one[count - 1] = [0, 1];
    let mut other = vec![[0, 0]; count];
    other[0] = [0, 1];
    let lines = set(&[&one]).compare(&set(&[&other]));
    assert_eq!(lines, Ok(vec![Line::Elsewhere { start: 1 }]));
    let pair: Vec<[i32; 2]> = (0..count).map(|i| [0, (i % 2) as i32]).collect();
    let turned: Vec<[i32; 2]> = (1..=count).map(|i| [0, (i % 2) as i32]).collect();
    let lines = set(&[&pair]).compare(&set(&[&turned]));
    assert_eq!(lines, Ok(vec![Line::Elsewhere { start: 1 }]));
}
