//! How many cross products were asked for. This part is ours: the crate has none such.

use core::cell::Cell;

std::thread_local! {
    static CROSSES: Cell<usize> = const { Cell::new(0) };
}

#[inline(always)]
pub(crate) fn one_more_cross() {
    CROSSES.set(CROSSES.get() + 1);
}

/// What `work` answers, and how many cross products it asked for.
pub fn crosses_of<T>(work: impl FnOnce() -> T) -> (T, usize) {
    let before = CROSSES.get();
    let answer = work();
    (answer, CROSSES.get() - before)
}
