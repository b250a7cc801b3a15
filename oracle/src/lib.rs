//! The published `packed_seq.rs`, compiled unchanged over stand-ins for the files and crates that it leans on.
//!
//! The names at this level are those that the original's `lib.rs` gives to its modules.

pub mod cases;

mod stand_ins {
    pub mod intrinsics;
    pub mod padded_it;
    pub mod traits;
    pub mod wide;
}

#[allow(warnings)]
pub mod packed_seq {
    include!(concat!(env!("OUT_DIR"), "/packed_seq.rs"));

    /// What the original keeps private and a comparison has to see.
    pub mod inside {
        use super::{Bits, PackedSeqBase, PackedSeqVecBase, SupportedBits};

        /// The buffer, the offset and the length of a view.
        pub fn parts<'s, const B: usize>(view: &PackedSeqBase<'s, B>) -> (&'s [u8], usize, usize)
        where
            Bits<B>: SupportedBits,
        {
            (view.seq, view.offset, view.len)
        }

        /// All bytes of a store, padding and all.
        pub fn bytes<const B: usize>(store: &PackedSeqVecBase<B>) -> &[u8] {
            &store.seq
        }
    }
}

pub use padded_it::{Advance, ChunkIt, PaddedIt};
pub use traits::{Delay, Seq, SeqVec};
pub use wide::u32x8;

/// The number of lanes in a `u32x8`.
pub const L: usize = 8;

use core::array::from_fn;
use mem_dbg::{MemDbg, MemSize};
use stand_ins::{intrinsics, padded_it, traits, wide};
use std::{hint::assert_unchecked, ops::Range};
use wide::u32x8 as S;
