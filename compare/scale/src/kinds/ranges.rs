//! Rows of ranges: all short ones at the ends of usize, and random ones.

use crate::ranges::Ranges;
use crate::tally::Tally;
use lists::rng::Rng;
use lists::sets::flat::Record;
use lists::sets::small::rows_up_to;

const MAX: usize = usize::MAX;

/// Every row of up to three ranges with these places, over each of them as the count.
pub fn at_the_ends(tally: &mut Tally) {
    const PLACES: [usize; 5] = [0, 1, 2, MAX - 1, MAX];
    let pairs = PLACES.map(|start| PLACES.map(|end| [start, end]));
    for records in rows_up_to(3, &pairs.concat()) {
        for count in PLACES {
            let records = records.clone();
            tally.compare(&Ranges { records, count });
        }
    }
}

/// A row in which each range starts where the one before ends, and one in sixteen runs backward. Half the rows are
/// damaged, by a gap, an overlap, a range turned round, lost, doubled or out of its turn, or another count.
pub fn any(tally: &mut Tally, rng: &mut Rng) {
    let unit = rng.pick(&[1, 1 << 20, MAX / 1600]);
    let most = rng.pick(&[3, 12, 100]);
    let mut records: Vec<Record> = vec![];
    let mut count = 0;
    for _ in 0..rng.below(most) {
        let start = count;
        count = match rng.below(16) {
            0 => rng.below(start / unit + 1) * unit,
            _ => start + rng.below(16) * unit,
        };
        records.push([start, count]);
    }
    if rng.below(8) == 0 {
        records.push([count, MAX]);
        count = MAX;
    }
    if rng.below(2) == 0 {
        damage(&mut records, &mut count, rng);
    }
    tally.compare(&Ranges { records, count });
}

fn damage(records: &mut Vec<Record>, count: &mut usize, rng: &mut Rng) {
    let place = rng.below(records.len());
    let elsewhere = |at: usize, rng: &mut Rng| {
        let (before, behind) = (at.wrapping_sub(1), at.wrapping_add(1));
        rng.pick(&[before, behind, 0, MAX, at ^ 1 << 32, at ^ 1 << 63])
    };
    match rng.below(6) {
        0 if !records.is_empty() => records[place].reverse(),
        1 if !records.is_empty() => drop(records.remove(place)),
        2 if !records.is_empty() => records.insert(place, records[place]),
        3 if !records.is_empty() => records.swap(0, place),
        4 if !records.is_empty() => {
            let end = &mut records[place][rng.below(2)];
            *end = elsewhere(*end, rng);
        }
        _ => *count = elsewhere(*count, rng),
    }
}
