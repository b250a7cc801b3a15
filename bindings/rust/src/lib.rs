//! Packed DNA tracks: safe types over the calls of `libtsivelaro.a`, whose functions are proved to meet their contracts.
//!
//! This crate owns no rule of its own: every number and every byte comes from a call of the archive, which `include/tsivelaro.h`
//! describes. Lengths, offsets and places in characters are [`Chars`]; what a call refuses is a [`Refusal`].
//!
//! ```
//! use tsivelaro::{bases, Chars};
//!
//! let mut buffer = [0; 64];
//! let mut store = bases::Store::clear(&mut buffer)?;
//! store.push_ascii(b"ACGTTGCA")?;
//! let read = store.view();
//! let mut other = [0; 64];
//! let reverse = read.to_revcomp(&mut other)?;
//! assert_eq!(read.compare(reverse)?, (std::cmp::Ordering::Less, Chars(0)));
//! assert_eq!(read.slice(Chars(1), Chars(3))?.as_u64()?, 0b1101);
//! # Ok::<(), tsivelaro::Refusal>(())
//! ```
#![warn(missing_docs)]

mod answers;
pub mod counts;
pub mod form;
pub mod letters;
mod sys;
pub mod twobit;
mod width;
pub mod words;

pub use answers::{Chars, Filled, Part, Pushed, Refusal, Shape, Windows};
pub use width::{bases, flags};

/// The version of the archive: major, minor, patch in 16, 8 and 8 bits.
pub fn version() -> u32 {
    // SAFETY: it takes nothing.
    unsafe { sys::tsiv_version() }
}

/// The entries that so many steps of a stream, or of windows, take.
pub fn lanes_room(steps: usize) -> usize {
    // SAFETY: it takes a number.
    unsafe { sys::tsiv_lanes_room(steps) }
}
