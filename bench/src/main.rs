//! Ours against the original, both optimised, on the same inputs, turn by turn in one process.
//!
//! Prints the ratio of ours to the original for each job: the median of its rounds, and the least and the largest; and both times. Jobs
//! that the original has no call for have our time alone, those of counts ours with entries against ours without, and those of .2bit files ours
//! against a copy of the file's bytes. No job is timed before its results were held to be right.

mod counts;
mod files;
mod job;
mod packing;
mod streams;
mod views;

use oracle::SeqVec;
use tsivelaro::Refusal;

/// Letters of each input.
const LETTERS: usize = 1_000_000;

fn main() -> Result<(), Refusal> {
    job::head();
    let text = letters(1);
    packing::jobs(&text)?;
    counts::jobs(&text)?;
    views::jobs(&text)?;
    streams::jobs(&text)?;
    files::jobs(&text)
}

/// Letters that look random, one in a hundred an N.
fn letters(seed: u64) -> Vec<u8> {
    let mut state = seed;
    let mut next = || {
        state = state
            .wrapping_mul(6364136223846793005)
            .wrapping_add(1442695040888963407);
        (state >> 33) as usize
    };
    (0..LETTERS)
        .map(|_| match next() % 100 {
            0 => b'N',
            _ => b"ACGT"[next() % 4],
        })
        .collect()
}

/// The original's store of these letters.
fn packed_by<S: SeqVec + Default>(text: &[u8]) -> S {
    let mut store = S::default();
    store.push_ascii(text);
    store
}
