//! Files to be mended, into rows as long as needed, longer and shorter.

use super::case::{Case, LONGEST_MENDED};
use super::damaged::{headers, pair, with_pair};
use super::mend::Lent;
use super::sound::random_file;
use crate::point::{Point, OFF_NARROW};
use crate::rng::Rng;
use crate::sets::small::rows_up_to;
use std::collections::HashSet;

/// How much longer the output and the list are than need be, or shorter.
pub type Offsets = [isize; 2];

pub fn mending(file: &[u8], [out, list]: Offsets) -> Case {
    let need = need(file);
    let beside = |need: usize, more, most: usize| need.saturating_add_signed(more).min(most);
    let lent = Lent {
        out: beside(need.out, out, LONGEST_MENDED.out),
        list: beside(need.list, list, LONGEST_MENDED.list),
    };
    let file = file.to_vec();
    Case::Mending { lent, file }
}

/// As long as the file, and as its count of contours.
fn need(file: &[u8]) -> Lent {
    Lent {
        out: file.len(),
        list: if file.len() < 2 { 0 } else { promised(file) },
    }
}

/// How many contours a file of two bytes or more says that it has.
pub fn promised(file: &[u8]) -> usize {
    usize::from(pair(file, 0) & 0xfff)
}

/// With rows exactly as long as needed, or one of them longer, in turn.
fn in_turn(files: Vec<Vec<u8>>) -> Vec<Case> {
    let offsets = [[0, 0], [5, 0], [0, 0], [0, 2]].into_iter().cycle();
    let cases = files.iter().zip(offsets);
    cases
        .map(|(file, offsets)| mending(file, offsets))
        .collect()
}

/// Every file that is read in the list, and those below, each once.
pub fn files(readings: &[Case]) -> Vec<Case> {
    let read = readings.iter().filter_map(Case::file).collect();
    let mut files = [read, of_examples(), contours(), cut_and_longer()].concat();
    let mut seen = HashSet::new();
    files.retain(|file| seen.insert(file.clone()));
    in_turn(files)
}

/// The files that the programs are shown with, sound and damaged; `cut.set` is one of them, cut.
const EXAMPLES: [&[u8]; 5] = [
    include_bytes!("../../../../examples/w4.set"),
    include_bytes!("../../../../examples/gasket.set"),
    include_bytes!("../../../../examples/sliver.set"),
    include_bytes!("../../../../examples/damaged.set"),
    include_bytes!("../../../../examples/offgrid.set"),
];

/// Each example whole, cut at every length, and with each of its bytes turned over.
fn of_examples() -> Vec<Vec<u8>> {
    let mut files = vec![];
    for example in EXAMPLES {
        files.extend((0..=example.len()).map(|length| example[..length].to_vec()));
        files.extend((0..example.len()).map(|place| {
            let mut file = example.to_vec();
            file[place] ^= 0xff;
            file
        }));
    }
    files
}

/// A contour as a file has it, which begins a shape or not.
pub type Contour = (bool, Vec<Point>);

/// The file of these contours, whatever they are.
pub fn file_of(contours: &[Contour]) -> Vec<u8> {
    let mut file = (0x1000 | contours.len() as u16).to_be_bytes().to_vec();
    for (begins, points) in contours {
        let header = u16::from(*begins) << 15 | points.len() as u16;
        file.extend(header.to_be_bytes());
        let numbers = points.concat();
        file.extend(numbers.iter().flat_map(|number| number.to_be_bytes()));
    }
    file
}

/// Every row of up to so many contours, each of which begins a shape or not, and is on the grid or off.
fn rows_of_contours(most: usize) -> Vec<Vec<Contour>> {
    let kinds = [(true, true), (true, false), (false, true), (false, false)];
    let contour = |(place, &(begins, on)): (usize, &(bool, bool))| {
        let points = (0..(place + 1) % 3).map(|k| [place as i32, k as i32 - 1]);
        let off = OFF_NARROW[place % OFF_NARROW.len()];
        let last = if place % 2 == 0 { [off, 5] } else { [-6, off] };
        (begins, points.chain((!on).then_some(last)).collect())
    };
    let rows = rows_up_to(most, &kinds);
    let contours = |kinds: &Vec<(bool, bool)>| kinds.iter().enumerate().map(contour).collect();
    rows.iter().map(contours).collect()
}

/// Outlines and holes, on the grid and off, in every order.
fn contours() -> Vec<Vec<u8>> {
    rows_of_contours(4).iter().map(|row| file_of(row)).collect()
}

/// Outlines and holes with the end gone, with bytes behind them, and with a contour more promised or less.
fn cut_and_longer() -> Vec<Vec<u8>> {
    let mut files = vec![];
    for file in rows_of_contours(3).iter().map(|row| file_of(row)) {
        let count = pair(&file, 0);
        if let Some(&last) = headers(&file).last() {
            files.push(file[..last + 1].to_vec());
            files.push(file[..file.len() - 1].to_vec());
            files.push(with_pair(&file, 0, count - 1));
        }
        for more in [&[0x80][..], &[0x80, 0], &[0, 0, 0]] {
            let longer = [&file, more].concat();
            files.push(with_pair(&longer, 0, count + 1));
            files.push(longer);
        }
    }
    files
}

/// Chosen files with every choice of rows.
pub fn rows() -> Vec<Case> {
    let whole = file_of(&[
        (false, vec![[1, 2]]),
        (true, vec![[3, 4], [5, 6]]),
        (false, vec![[7, OFF_NARROW[0]]]),
        (true, vec![]),
    ]);
    let mut cases = vec![];
    for file in [
        &[][..],
        &[0x10],
        &[0x10, 0],
        &[0x20, 3],
        &[0x10, 2],
        &[0x10, 1, 0x80, 0],
        &[0x1f, 0xff],
        &[0x1f, 0xff, 0, 0, 0],
        &whole,
        &whole[..whole.len() - 1],
        &[&whole[..], &[0; 9]].concat(),
    ] {
        for offsets in [
            [0, 0],
            [-1, 0],
            [0, -1],
            [-1, -1],
            [1, 0],
            [0, 1],
            [isize::MIN, 0],
            [0, isize::MIN],
            [isize::MIN; 2],
            [isize::MAX; 2],
        ] {
            cases.push(mending(file, offsets));
        }
    }
    cases
}

/// Files with every kind of damage.
pub fn random() -> Vec<Case> {
    let rng = &mut Rng::new(604);
    let cases = (0..300).map(|_| {
        let file = damaged(random_file(rng), rng);
        mending(&file, offsets(rng))
    });
    cases.collect()
}

/// Rows around the need, one in eight too short.
pub fn offsets(rng: &mut Rng) -> Offsets {
    match rng.below(16) {
        0 => [-1, 0],
        1 => [0, -1],
        _ => [rng.pick(&[0, 0, 1, 9]), rng.pick(&[0, 0, 1, 4])],
    }
}

/// A sound file with some coordinates off the grid and some contours that begin a shape or not, contrary to before;
/// then cut, longer, of another count, or with other bits.
pub fn damaged(mut file: Vec<u8>, rng: &mut Rng) -> Vec<u8> {
    let headers = headers(&file);
    if !headers.is_empty() {
        for _ in 0..rng.pick(&[0, 1, 2, 9]) {
            put_off(&mut file, rng.pick(&headers), rng);
        }
        for _ in 0..rng.pick(&[0, 0, 1, 9]) {
            file[rng.pick(&headers)] ^= 0x80;
        }
    }
    for _ in 0..rng.below(3) {
        damage(&mut file, rng);
    }
    file
}

/// Puts a coordinate of the contour behind this header off the grid, if it has one.
fn put_off(file: &mut [u8], header: usize, rng: &mut Rng) {
    let numbers = 2 * usize::from(pair(file, header) & 0x7fff);
    if numbers > 0 {
        let place = header + 2 + 4 * rng.below(numbers);
        file[place..place + 4].copy_from_slice(&rng.pick(&OFF_NARROW).to_be_bytes());
    }
}

fn damage(file: &mut Vec<u8>, rng: &mut Rng) {
    let place = rng.below(file.len());
    match rng.below(6) {
        0 | 1 => file.truncate(place),
        2 => file.extend([0x80, 0, 0xff].repeat(rng.below(6))),
        3 if file.len() >= 2 => {
            let count = promised(file).wrapping_add_signed(rng.pick(&[-2, -1, 1, 2, 100]));
            file[..2].copy_from_slice(&(0x1000 | count as u16 & 0xfff).to_be_bytes());
        }
        4 if !file.is_empty() => file[place] = rng.below(256) as u8,
        _ if !file.is_empty() => file[place] ^= 0x80 >> rng.below(8),
        _ => file.push(0x10),
    }
}

#[cfg(test)]
mod tests {
    use super::promised;
    use crate::files::{list, Case};
    use requests::edition::read;
    use requests::salvage::{mend, Mended};

    /// The files of the list, each with what is mended of it.
    fn mended() -> Vec<(Vec<u8>, Mended)> {
        let of_case = |case| match case {
            Case::Mending { lent, file } => {
                let mended = mend(lent.out, lent.list, &file).ok()?;
                Some((file, mended))
            }
            _ => None,
        };
        list().into_iter().filter_map(of_case).collect()
    }

    #[test]
    fn what_is_written_is_read_and_all_contours_are_accounted_for() {
        for (file, mended) in mended() {
            let (_, shapes) = read(&mended.file).expect("a file that is read");
            let kept = shapes.concat();
            let all = kept.len() + mended.dropped.len() + mended.missing;
            assert_eq!(all, promised(&file), "{file:x?}");
        }
    }

    #[test]
    fn exactly_a_sound_file_comes_back_with_nothing_to_say() {
        for (file, mended) in mended() {
            let nothing_said = mended.dropped.is_empty() && mended.missing + mended.past == 0;
            assert_eq!(read(&file).is_ok(), nothing_said, "{file:x?}");
            assert_eq!(nothing_said, mended.file == file, "{file:x?}");
        }
    }
}
