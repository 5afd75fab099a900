//! Ranges, and whether they are sound.

/// A start and an end.
pub type Record = [usize; 2];

/// Whether the first starts at 0, each starts where the one before ends, none runs
/// backward, and the last ends at the count.
pub fn sound(records: &[Record], count: usize) -> bool {
    let ends = records.iter().map(|record| record[1]);
    let befores = std::iter::once(0).chain(ends);
    let follows = |(before, &[start, end]): (usize, &Record)| start == before && start <= end;
    let last = records.last().map_or(0, |record| record[1]);
    befores.zip(records).all(follows) && last == count
}

#[cfg(test)]
mod tests {
    use super::sound;

    #[test]
    fn ranges_are_sound_if_they_follow_one_upon_the_other() {
        for (records, count) in [(&[][..], 0), (&[[0, 0]], 0), (&[[0, 2], [2, 2], [2, 5]], 5)] {
            assert!(sound(records, count), "{records:?}");
        }
        for (records, count) in [
            (&[][..], 1),
            (&[[1, 2]], 2),
            (&[[0, 1]], 2),
            (&[[0, 3]], 2),
            (&[[0, 1], [2, 3]], 3),
            (&[[0, 2], [1, 3]], 3),
            (&[[0, 3], [3, 2]], 2),
            (&[[0, 3], [3, 1], [1, 2]], 2),
        ] {
            assert!(!sound(records, count), "{records:?}");
        }
    }
}
