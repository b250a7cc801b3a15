//! The original, and ways of asking it on which it is right.

use super::plain::{put, up};
use super::refusals::BEHIND;
use crate::packed_seq::{Bits, PackedSeqBase, PackedSeqVecBase, SupportedBits};
use crate::{Seq, SeqVec};

pub fn view<const B: usize>(bytes: &[u8], offset: usize, len: usize) -> PackedSeqBase<'_, B>
where
    Bits<B>: SupportedBits,
{
    PackedSeqBase::from_raw_parts(bytes, offset, len)
}

/// A view's characters.
pub fn characters<const B: usize>(view: PackedSeqBase<B>) -> Vec<u8>
where
    Bits<B>: SupportedBits,
{
    (0..view.len()).map(|i| view.get(i)).collect()
}

/// These characters in a store of their own.
pub fn afresh<const B: usize>(chars: &[u8]) -> PackedSeqVecBase<B>
where
    Bits<B>: SupportedBits,
{
    let letters = if B == 1 { b"ANxx" } else { b"ACTG" };
    let text: Vec<u8> = chars.iter().map(|&char| letters[char as usize]).collect();
    let mut store = PackedSeqVecBase::default();
    store.push_ascii(&text);
    store
}

/// The letter by which the original is asked for this one's strict code and flag: it refuses and flags U and u, which count
/// as T by the rules.
pub fn with_t(letter: u8) -> u8 {
    match letter {
        b'U' => b'T',
        b'u' => b't',
        other => other,
    }
}

/// The bytes of a view without stray bits: zeros below its offset and behind its end.
pub fn clean(w: usize, chars: &[u8], offset: usize) -> Vec<u8> {
    let mut bytes = vec![0; up(w, offset + chars.len()) + BEHIND];
    put(w, &mut bytes, offset, chars);
    bytes
}
