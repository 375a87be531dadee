//! How many terms were moved: shifted, written or merged.

use std::cell::Cell;

thread_local! {
    static MOVED: Cell<u64> = const { Cell::new(0) };
}

/// Counts so many terms more.
pub fn count(terms: usize) {
    MOVED.with(|moved| moved.set(moved.get() + terms as u64));
}

/// The terms moved since it was asked last.
pub fn taken() -> u64 {
    MOVED.with(Cell::take)
}
