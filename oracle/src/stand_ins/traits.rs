//! Stands in for the original's `traits.rs`: the declarations of `Seq`, `SeqVec` and `Delay`.
//! Only `read_kmer` has a body here, and only `iter_kmer_ambiguity` rests on it.

use super::{
    padded_it::{ChunkIt, PaddedIt},
    wide::u32x8 as S,
};
use std::{cmp::Ordering, ops::Range};

pub struct Delay(pub usize);

pub trait Seq<'s>: Sized {
    const BITS_PER_CHAR: usize;
    const BASES_PER_BYTE: usize;
    type SeqVec: SeqVec;

    fn len(&self) -> usize;
    fn is_empty(&self) -> bool;
    fn get(&self, index: usize) -> u8;
    fn get_ascii(&self, index: usize) -> u8;
    fn as_u64(&self) -> u64;
    fn revcomp_as_u64(&self) -> u64;
    fn as_u128(&self) -> u128;
    fn revcomp_as_u128(&self) -> u128;
    fn to_vec(&self) -> Self::SeqVec;
    fn to_revcomp(&self) -> Self::SeqVec;
    fn slice(&self, range: Range<usize>) -> Self;
    fn iter_bp(self) -> impl ExactSizeIterator<Item = u8>;
    fn par_iter_bp(self, context: usize) -> PaddedIt<impl ChunkIt<S>>;
    fn par_iter_bp_delayed(self, context: usize, delay: Delay) -> PaddedIt<impl ChunkIt<(S, S)>>;
    fn par_iter_bp_delayed_2(
        self,
        context: usize,
        delay1: Delay,
        delay2: Delay,
    ) -> PaddedIt<impl ChunkIt<(S, S, S)>>;
    fn cmp_lcp(&self, other: &Self) -> (Ordering, usize);

    /// The word of the `k` characters from `pos` on.
    #[inline(always)]
    fn read_kmer(&self, k: usize, pos: usize) -> u64 {
        self.slice(pos..pos + k).as_u64()
    }
}

pub trait SeqVec {
    type Seq<'s>
    where
        Self: 's;

    fn into_raw(self) -> Vec<u8>;
    fn as_slice(&self) -> Self::Seq<'_>;
    fn len(&self) -> usize;
    fn is_empty(&self) -> bool;
    fn clear(&mut self);
    fn push_seq(&mut self, seq: Self::Seq<'_>) -> Range<usize>;
    fn push_ascii(&mut self, seq: &[u8]) -> Range<usize>;
}
