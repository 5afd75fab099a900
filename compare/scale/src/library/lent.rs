//! Rows lent for writing.

/// How many entries stand on either side of a row.
const GUARD: usize = 4;

/// A row of canaries, with more of them on either side that no call may touch.
#[derive(Debug)]
pub struct Lent<T> {
    canary: T,
    all: Vec<T>,
}

impl<T: Copy + PartialEq> Lent<T> {
    pub fn new(canary: T, length: usize) -> Lent<T> {
        Lent {
            canary,
            all: vec![canary; length + 2 * GUARD],
        }
    }

    /// A row of these entries, with canaries on either side.
    pub fn of(canary: T, entries: &[T]) -> Lent<T> {
        let mut lent = Lent::new(canary, entries.len());
        lent.row_mut().copy_from_slice(entries);
        lent
    }

    pub fn row(&self) -> &[T] {
        &self.all[GUARD..self.all.len() - GUARD]
    }

    pub fn row_mut(&mut self) -> &mut [T] {
        let end = self.all.len() - GUARD;
        &mut self.all[GUARD..end]
    }

    /// Whether the row holds these entries, and both sides are as they were.
    pub fn holds(&self, entries: &[T]) -> bool {
        let (front, rest) = self.all.split_at(GUARD);
        let (row, back) = rest.split_at(rest.len() - GUARD);
        let mut sides = front.iter().chain(back);
        sides.all(|&entry| entry == self.canary) && row == entries
    }

    /// The first place at which that is not so, below 0 or past the end if it is beside the
    /// row, with what belongs there and what stands there.
    pub fn first_other(&self, entries: &[T]) -> Option<(isize, T, T)> {
        let side = || std::iter::repeat_n(self.canary, GUARD);
        let belong = side().chain(entries.iter().copied()).chain(side());
        let places = (0..).map(|place: isize| place - GUARD as isize);
        let stand = self.all.iter().copied();
        let mut all = places.zip(belong).zip(stand);
        let ((place, belongs), stands) = all.find(|((_, belongs), stands)| belongs != stands)?;
        Some((place, belongs, stands))
    }
}
