//! The three ways in which releases of the original failed in the field, each on its smallest input.

use super::lines::{case, split};
use super::refusals::{BEHIND, bad_word, number};
use super::stores::Store;
use crate::packed_seq::{Bits, SupportedBits};

pub fn print() {
    zero_reverse_length();
    tracks_glued_level();
    letters_after_a_view_that_ended_inside_a_byte::<2>();
    letters_after_a_view_that_ended_inside_a_byte::<1>();
}

/// A zero length shifted by 64 and silently did nothing: each reverse refuses it.
fn zero_reverse_length() {
    let refusal = number(&[bad_word(0, 1, 32)]);
    let [high, low] = split(4);
    case(&[24, 0, high, low], &[refusal, 0]);
    case(&[26, 0, high, low], &[refusal, 0]);
    case(&[25, 0, high, low, 0, 0], &[refusal, 0, 0]);
    case(&[27, 0, high, low, 0, 0], &[refusal, 0, 0]);
}

/// Base and flag tracks were glued with different gaps: from a length that is a multiple of 8, views at in-byte offset 0 start level.
fn tracks_glued_level() {
    let mut bases = Store::<2>::new(2 * BEHIND, 255, 0);
    bases.clear();
    bases.push_ascii(b"ACGTNACG");
    bases.push_seq(&[228; BEHIND + 2], 0, 5);
    let mut flags = Store::<1>::new(2 * BEHIND, 255, 0);
    flags.clear();
    flags.push_ascii(b"ACGTNACG");
    flags.push_seq(&[9; BEHIND + 2], 0, 5);
    assert_eq!(bases.len, flags.len);
}

/// Bases were or-ed onto the bits that a view had left behind its end.
fn letters_after_a_view_that_ended_inside_a_byte<const B: usize>()
where
    Bits<B>: SupportedBits,
{
    let mut store = Store::<B>::new(2 * BEHIND, 255, 0);
    store.clear();
    store.push_seq(&[255; BEHIND + 1], 0, 1);
    store.push_ascii(b"A");
    store.push_ascii(b"CT");
}
