//! Document 01's refusal table, as far as the cases reach it: each line is a test, and a refused call answers the lowest
//! number whose test holds and zeros for the other numbers. Sums are exact: no number of a case reaches 2^32. PARTIAL comes
//! before NO_ROOM: no case of windows is short of room.

use super::plain::{per, up};

/// Whether a line of the table holds, and its number.
pub type Test = (bool, u64);

/// The bytes that must stand behind a view's or a store's characters.
pub const BEHIND: usize = 48;

pub fn bad_store(w: usize, size: usize, len: usize) -> Test {
    (up(w, len) + BEHIND > size, 2)
}

pub fn bad_view(w: usize, bytes: &[u8], offset: usize, len: usize) -> Test {
    let characters = bytes.len() * per(w);
    (offset + len + BEHIND * per(w) > characters, 3)
}

pub fn bad_range(holds: bool) -> Test {
    (holds, 4)
}

pub fn bad_word(len: usize, least: usize, most: usize) -> Test {
    (len < least || len > most, 5)
}

pub fn bad_letter(holds: bool) -> Test {
    (holds, 6)
}

pub fn bad_stream(holds: bool) -> Test {
    (holds, 8)
}

pub fn no_room(size: usize, needed: usize) -> Test {
    (needed > size, 9)
}

/// If there are steps: a skip below k - 1, or a context below k.
pub fn partial(steps: usize, context: usize, k: usize, skip: usize) -> Test {
    (steps > 0 && (skip + 1 < k || context < k), 10)
}

/// The refusal number, 0 where nothing is refused.
pub fn number(tests: &[Test]) -> u64 {
    let holding = tests.iter().filter(|(holds, _)| *holds);
    holding.map(|(_, number)| *number).min().unwrap_or(0)
}

/// The numbers that a call answers: those of `done` behind a 0, or its refusal.
pub fn answer<T: Into<u64>, const N: usize>(
    tests: &[Test],
    done: impl FnOnce() -> [T; N],
) -> Vec<u64> {
    match number(tests) {
        0 => [0].into_iter().chain(done().map(T::into)).collect(),
        refusal => [refusal].into_iter().chain([0; N]).collect(),
    }
}
