//! How many cells were taken from the queue: counted in the build that has the added line, 0 in the other.
use std::cell::Cell;

thread_local! {
    static TAKES: Cell<u64> = const { Cell::new(0) };
}

pub fn count() {
    TAKES.with(|takes| takes.set(takes.get().saturating_add(1)));
}

/// The takes since the last call.
pub fn counted() -> u64 {
    TAKES.with(|takes| takes.replace(0))
}
