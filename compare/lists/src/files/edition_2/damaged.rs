//! Files of edition 2 that are damaged, and some that are sound in spite of it.

use super::super::case::{Case, LONGEST};
use super::super::damaged::{around, damage};
use super::super::sound::reading;
use super::raw::{
    file_of, first_bits, headers, one, turned, with_count, with_field, with_width, Contour, Place,
};
use super::sound::{random_file, strolled};
use crate::point::LIMIT;
use crate::rng::Rng;
use crate::sets::rows::Lengths;

/// With room for whatever a file of this length can carry, or with none, in turn.
pub fn in_turn(files: Vec<Vec<u8>>) -> Vec<Case> {
    let case = |(turn, file): (usize, Vec<u8>)| reading(rows(turn, file.len()), &file);
    files.into_iter().enumerate().map(case).collect()
}

/// Two bits for each point at least, and two bytes for a contour.
pub fn rows(turn: usize, bytes: usize) -> Lengths {
    let [out, records] = match turn % 3 {
        2 => [0, 0],
        _ => [8 * bytes + 1, bytes / 2 + 2],
    };
    Lengths {
        out: out.min(LONGEST.out),
        records: records.min(LONGEST.records),
        groups: records.min(LONGEST.groups),
    }
}

/// Short files with every field there is, and with every number of fill bits: 0, 2, 4 and 6.
fn files() -> Vec<Vec<Contour>> {
    let outline = |places: &[Place]| Contour::new(true, places);
    let hole = |places: &[Place]| Contour::new(false, places);
    vec![
        vec![],
        vec![outline(&[])],
        vec![outline(&[[5, -6]])],
        vec![outline(&[[5, -2], [4, -2]])],
        vec![outline(&[[5, -2], [2, 0], [3, 3]])],
        vec![outline(&[]), hole(&[[7, 7]])],
        vec![outline(&[[1, 2], [3, 4]]), outline(&[]), hole(&[[-1, -9]])],
    ]
}

/// Each file cut at every bit, the last byte filled up with zeros.
pub fn cut() -> Vec<Case> {
    let mut damaged = vec![];
    for file in files().iter().map(|contours| file_of(contours)) {
        damaged.extend((0..8 * file.len()).map(|bits| first_bits(&file, bits)));
        damaged.extend((0..file.len()).map(|length| file[..length].to_vec()));
    }
    in_turn(damaged)
}

/// Each file with bytes behind it, its fill bits zero or set.
pub fn longer() -> Vec<Case> {
    let mut damaged = vec![];
    for file in files().iter().map(|contours| file_of(contours)) {
        let last = 8 * file.len() - 1;
        for more in [&[0][..], &[0xff], &[0x80, 0, 0x04], &[0; 8], &[0x20; 10]] {
            damaged.push([&file[..], more].concat());
            damaged.push([&turned(&file, last)[..], more].concat());
        }
    }
    in_turn(damaged)
}

/// Each file with each of its fill bits set, and with all of them; that with a place off the grid, and with a width
/// that is none.
pub fn fills() -> Vec<Case> {
    let mut damaged = vec![];
    for contours in files() {
        let file = file_of(&contours);
        let fill = headers(&contours)[contours.len()];
        let width = 8 * file.len() - fill;
        damaged.extend((fill..8 * file.len()).map(|place| turned(&file, place)));
        let filled = with_field(&file, fill, width, 0xff);
        if !contours.is_empty() {
            damaged.push(with_width(&filled, 16, 2));
        }
        if contours
            .first()
            .is_some_and(|first| !first.places.is_empty())
        {
            damaged.push(with_field(&filled, 38, 32, 0x4000_0000));
            damaged.push(with_field(&file, 38, 32, 0x4000_0000));
        }
        damaged.push(filled);
    }
    in_turn(damaged)
}

/// Each file with each of its bits turned over.
pub fn bits() -> Vec<Case> {
    let mut damaged = vec![];
    for file in files().iter().map(|contours| file_of(contours)) {
        damaged.extend((0..8 * file.len()).map(|place| turned(&file, place)));
    }
    in_turn(damaged)
}

/// Each file with other counts of contours and of a contour's points.
pub fn counts() -> Vec<Case> {
    let mut damaged = vec![];
    for contours in files() {
        let file = file_of(&contours);
        for other in around(contours.len(), 0xfff) {
            damaged.push(with_field(&file, 4, 12, other));
        }
        for (contour, header) in contours.iter().zip(headers(&contours)) {
            for other in around(contour.places.len(), 0x7fff) {
                damaged.push(with_count(&file, header, other));
            }
        }
    }
    in_turn(damaged)
}

/// Each file with a contour that begins a shape or not, contrary to before; that cut at its header's end, cut short,
/// with a byte left over, and with no width.
pub fn beginnings() -> Vec<Case> {
    let mut damaged = vec![
        vec![0x20, 1, 0, 0],
        vec![0x20, 1, 0, 0, 0],
        vec![0x20, 2, 0, 0],
    ];
    for contours in files() {
        let file = file_of(&contours);
        for header in &headers(&contours)[..contours.len()] {
            let other = turned(&file, *header);
            damaged.push(first_bits(&other, header + 22));
            damaged.push(other[..other.len() - 1].to_vec());
            damaged.push([&other[..], &[0]].concat());
            damaged.push(with_width(&other, *header, 0));
            damaged.push(other);
        }
    }
    in_turn(damaged)
}

/// Places one past the grid and further, in front, amid others and at the end, some reached by steps that come back:
/// alone, with a fill bit set, with a byte left over, cut short, and behind a contour that is sound.
pub fn off_the_grid() -> Vec<Case> {
    let end = i64::from(LIMIT);
    let low = i64::from(i32::MIN);
    let rows: [&[Place]; 16] = [
        &[[end + 1, 0]],
        &[[0, -end - 1]],
        &[[low, 5]],
        &[[-low - 1, 5], [end, 5]],
        &[[end, 1], [end + 1, 1]],
        &[[end, 1], [end + 1, 1], [end, 1]],
        &[[1, -end], [1, -end - 1], [1, -end]],
        &[[1 - end, 3], [2 - end, 3], [-end - 2, 3], [3 - end, 3]],
        &[[end, end], [-end, -end], [end, end + 1]],
        &[[end, -end], [low + end, -end]],
        &[[-end, -end], [-low - 1 - end, -end], [-end, -end]],
        &[[end, 0], [end - low - 1, 0], [end - 2 * low - 2, 0]],
        &[[-end, 0], [-end + low, 0], [-end + 2 * low, 0]],
        &[
            [end, 0],
            [end - low - 1, 0],
            [end - 2 * low - 2, 0],
            [end - low - 1, 0],
            [end, 0],
        ],
        &[[end, -end], [-end, end], [end, -end]],
        &[[end, end], [end, end - 1], [end - 1, end]],
    ];
    let sound = Contour::new(true, &[[1, 2], [2, 2]]);
    let mut damaged = vec![];
    for places in rows {
        let contour = Contour::new(true, places);
        let file = one(&contour);
        damaged.push(turned(&file, 8 * file.len() - 1));
        damaged.push([&file[..], &[0]].concat());
        damaged.push(file[..file.len() - 1].to_vec());
        damaged.push(file);
        damaged.push(file_of(&[sound.clone(), contour]));
    }
    in_turn(damaged)
}

/// Files with one to three damages; two may undo each other.
pub fn random() -> Vec<Case> {
    let rng = &mut Rng::new(606);
    in_turn((0..300).map(|_| damaged_file(rng)).collect())
}

/// Half of them with damages anywhere, half with one that stands where it must be told from others.
pub fn damaged_file(rng: &mut Rng) -> Vec<u8> {
    match rng.below(2) {
        0 => damaged_anywhere(rng),
        _ => damaged_in_a_field(rng),
    }
}

fn damaged_anywhere(rng: &mut Rng) -> Vec<u8> {
    let mut file = random_file(rng);
    for _ in 0..rng.pick(&[1, 1, 2, 3]) {
        match rng.below(3) {
            0 if file.len() > 2 => file = first_bits(&file, 16 + rng.below(8 * file.len() - 15)),
            1 if file.len() >= 5 => file = with_width(&file, 16, rng.below(64)),
            _ => damage(&mut file, rng),
        }
    }
    file
}

/// A contour past the grid, in another width, or one that begins a shape or not, contrary to before; then a bit of the
/// last ones turned over, a byte left over, bits gone, or another width or count in a header.
fn damaged_in_a_field(rng: &mut Rng) -> Vec<u8> {
    let count = rng.between(1, 5);
    let mut contours: Vec<Contour> = (0..count)
        .map(|number| Contour::of_points(number == 0 || rng.below(3) == 0, &strolled(7, rng)))
        .collect();
    let place = rng.below(contours.len());
    let contour = &mut contours[place];
    let other_width = |width: usize, rng: &mut Rng| rng.pick(&[width - 1, width + 1, 0, 33, 63]);
    let width = contour.width;
    match rng.below(8) {
        0 | 1 => *contour = past_the_grid(contour, rng),
        2 => contour.width = other_width(width, rng),
        3 => contour.begins = !contour.begins,
        _ => {}
    }
    let (file, header) = (file_of(&contours), headers(&contours)[place]);
    let points = contours[place].places.len();
    match rng.below(8) {
        0 | 1 => turned(&file, 8 * file.len() - 1 - rng.below(6)),
        2 => [&file[..], &[0]].concat(),
        3 => first_bits(&file, 8 * file.len() - 1 - rng.below(20)),
        4 => with_width(&file, header, other_width(width, rng)),
        5 => with_count(
            &file,
            header,
            rng.pick(&[points + 1, points.saturating_sub(1), 0x7fff]),
        ),
        _ => file,
    }
}

/// The contour moved along x or y until some of its places are a little past the grid, or one of its places put there.
fn past_the_grid(contour: &Contour, rng: &mut Rng) -> Contour {
    let mut places = contour.places.clone();
    let (axis, side) = (rng.below(2), rng.pick(&[1, -1]));
    let past = i64::from(LIMIT) + 1 + rng.below(3) as i64;
    let furthest = places.iter().map(|place| side * place[axis]).max();
    if let Some(furthest) = furthest {
        if rng.below(2) == 0 {
            places
                .iter_mut()
                .for_each(|place| place[axis] += side * (past - furthest));
        } else {
            let number = rng.below(places.len());
            places[number][axis] = side * past;
        }
    }
    Contour::new(contour.begins, &places)
}
