//! Words: character i at bit width · i. A word of 128 bits is a `u128`. Bits above a length are ignored, and those of a result 0.

use crate::{sys, Chars, Refusal};

pub(crate) fn halves(word: u128) -> (u64, u64) {
    (word as u64, (word >> 64) as u64)
}

pub(crate) fn joined(low: u64, high: u64) -> u128 {
    u128::from(high) << 64 | u128::from(low)
}

/// The word of 0 to 32 letters, any bytes. Refused: `BadWord` for more.
pub fn pack_kmer_lossy(letters: &[u8]) -> Result<u64, Refusal> {
    let mut to = 0;
    // SAFETY: the slice's own pointer and length.
    let number = unsafe { sys::tsiv_pack_kmer_lossy(letters.as_ptr(), letters.len(), &mut to) };
    Refusal::check(number).map(|()| to)
}

/// The word of 0 to 64 letters, any bytes. Refused: `BadWord` for more.
pub fn pack_kmer_u128_lossy(letters: &[u8]) -> Result<u128, Refusal> {
    let (mut low, mut high) = (0, 0);
    // SAFETY: the slice's own pointer and length.
    let number = unsafe {
        sys::tsiv_pack_kmer_u128_lossy(letters.as_ptr(), letters.len(), &mut low, &mut high)
    };
    Refusal::check(number).map(|()| joined(low, high))
}

/// Writes the k low bases of a word as capital letters, k from 0 to 32; later bytes stay.
///
/// Refused: `BadWord` for more; `NoRoom` for a buffer of fewer bytes than k.
pub fn unpack_kmer(word: u64, k: Chars, out: &mut [u8]) -> Result<(), Refusal> {
    // SAFETY: the slice's own pointer and length.
    Refusal::check(unsafe { sys::tsiv_unpack_kmer(word, k.0, out.as_mut_ptr(), out.len()) })
}

/// The same of a word of 128 bits, k from 0 to 64. Refused: `BadWord` for more; `NoRoom` for a buffer of fewer bytes than k.
pub fn unpack_kmer_u128(word: u128, k: Chars, out: &mut [u8]) -> Result<(), Refusal> {
    let (low, high) = halves(word);
    // SAFETY: the slice's own pointer and length.
    Refusal::check(unsafe {
        sys::tsiv_unpack_kmer_u128(low, high, k.0, out.as_mut_ptr(), out.len())
    })
}

fn flip(
    call: unsafe extern "C" fn(u64, usize, &mut u64) -> u32,
    word: u64,
    len: Chars,
) -> Result<u64, Refusal> {
    let mut to = 0;
    // SAFETY: the number behind the pointer is ours.
    Refusal::check(unsafe { call(word, len.0, &mut to) }).map(|()| to)
}

fn flip_u128(
    call: unsafe extern "C" fn(u64, u64, usize, &mut u64, &mut u64) -> u32,
    word: u128,
    len: Chars,
) -> Result<u128, Refusal> {
    let ((low, high), mut to_low, mut to_high) = (halves(word), 0, 0);
    // SAFETY: the numbers behind the pointers are ours.
    let number = unsafe { call(low, high, len.0, &mut to_low, &mut to_high) };
    Refusal::check(number).map(|()| joined(to_low, to_high))
}

/// The reverse complement of the `len` low bases, 1 to 32. Refused: `BadWord` for none, or more.
pub fn revcomp_u64(word: u64, len: Chars) -> Result<u64, Refusal> {
    flip(sys::tsiv_revcomp_u64, word, len)
}

/// The reverse complement of the `len` low bases, 1 to 64. Refused: `BadWord` for none, or more.
pub fn revcomp_u128(word: u128, len: Chars) -> Result<u128, Refusal> {
    flip_u128(sys::tsiv_revcomp_u128, word, len)
}

/// The `len` low flags in reverse, 1 to 64. Refused: `BadWord` for none, or more.
pub fn rev_u64(word: u64, len: Chars) -> Result<u64, Refusal> {
    flip(sys::tsiv_rev_u64, word, len)
}

/// The `len` low flags in reverse, 1 to 128. Refused: `BadWord` for none, or more.
pub fn rev_u128(word: u128, len: Chars) -> Result<u128, Refusal> {
    flip_u128(sys::tsiv_rev_u128, word, len)
}
