//! Calls on one view, which lies over the first buffer. Answers that cannot be taken from the original as they stand:
//! - The word of an empty view is 0 by 01; the original panics or leaves the word unmasked.
//! - Words of a view whose offset is C8 or more are asked of the view normalised.
//! - `to_revcomp` is asked of the same characters packed afresh at offset 0, so that nothing stands behind the end.
//!
//! The direct answers are asserted to be the printed ones elsewhere: words where the offset is below C8 or the view
//! ends within what the original reads, the characters of `to_revcomp`. So is `iter_bp` against `get`.

use super::lines::{case, halves, out, with_bytes};
use super::original::{afresh, characters, view};
use super::plain::{self, up};
use super::refusals::{BEHIND, Test, answer, bad_range, bad_view, bad_word, no_room, number};
use crate::packed_seq::{Bits, PackedSeqBase, SupportedBits, inside};
use crate::{Seq, SeqVec};
use std::fmt::Debug;

/// The view's bytes, which stand in the first buffer, its offset and its length.
#[derive(Clone, Copy)]
pub struct Asked<'a, const B: usize>(pub &'a [u8], pub usize, pub usize);

impl<const B: usize> Asked<'_, B>
where
    Bits<B>: SupportedBits,
{
    fn view(&self) -> PackedSeqBase<'_, B> {
        view(self.0, self.1, self.2)
    }

    fn bad_view(&self) -> Test {
        bad_view(B, self.0, self.1, self.2)
    }

    fn numbers(&self, call: usize) -> [usize; 4] {
        [call, B, self.1, self.2]
    }

    /// The view's characters, as the original gives them in two ways.
    fn characters(&self) -> Vec<u8> {
        let chars = characters(self.view());
        assert!(self.view().iter_bp().eq(chars.iter().copied()));
        assert_eq!(chars, plain::chars(B, self.0, self.1, self.2));
        chars
    }

    pub fn get(&self, i: usize) {
        let Asked(_, offset, len) = *self;
        let answer = answer(&[self.bad_view(), bad_range(i >= len)], || {
            [self.characters()[i]]
        });
        case(&[31, B, offset, len, i], &answer);
    }

    /// Character i of a slice.
    pub fn get_of_slice(&self, start: usize, end: usize, i: usize) {
        let Asked(bytes, offset, len) = *self;
        let bad_slice = end > len || start > end;
        let tests = [self.bad_view(), bad_range(bad_slice || i >= end - start)];
        let answer = answer(&tests, || {
            let char = self.view().slice(start..end).get(i);
            let part = Asked::<B>(bytes, offset + start, end - start);
            assert_eq!(char, part.characters()[i]);
            [char]
        });
        case(&[32, B, offset, len, start, end, i], &answer);
    }

    /// The view's words, as it is and reversed, of 64 bits and of 128.
    pub fn words(&self) {
        self.words_64();
        self.words_128();
    }

    pub fn words_64(&self) {
        let len = self.2;
        // The bits that the original reads.
        let read = if len <= 56 / B + 1 { 64 } else { 128 };
        let tests = |least| [self.bad_view(), bad_word(len, least, 64 / B)];
        let word = || [self.word(read, |view| view.as_u64().into(), ahead::<B>) as u64];
        case(&self.numbers(34), &answer(&tests(0), word));
        let word = || [self.word(read, |view| view.revcomp_as_u64().into(), back::<B>) as u64];
        case(&self.numbers(36), &answer(&tests(1), word));
    }

    pub fn words_128(&self) {
        let len = self.2;
        let read = if len <= 120 / B + 1 { 128 } else { 136 };
        let tests = |least| [self.bad_view(), bad_word(len, least, 128 / B)];
        let word = || halves(self.word(read, |view| view.as_u128(), ahead::<B>));
        case(&self.numbers(35), &answer(&tests(0), word));
        let word = || halves(self.word(read, |view| view.revcomp_as_u128(), back::<B>));
        case(&self.numbers(37), &answer(&tests(1), word));
    }

    /// The word that `ask` gives; the original reads `read` bits for it.
    fn word(
        &self,
        read: usize,
        ask: impl Fn(PackedSeqBase<B>) -> u128,
        plain: impl Fn(&[u8]) -> u128,
    ) -> u128 {
        let (offset, len) = (self.1, self.2);
        if len == 0 {
            return 0;
        }
        let chars = self.characters();
        let word = ask(self.view().normalize());
        assert_eq!(word, ask(afresh(&chars).as_slice()), "{self:?}");
        assert_eq!(word, plain(&chars), "{self:?}");
        if offset < 8 / B || B * (offset + len) <= read {
            assert_eq!(word, ask(self.view()), "{self:?}");
        }
        word
    }

    /// `to_revcomp` into a buffer of `room` bytes.
    pub fn reversed(&self, room: usize) {
        let needed = up(B, self.2) + BEHIND;
        let written = || {
            let chars = self.characters();
            let store = afresh::<B>(&chars).as_slice().to_revcomp();
            let sequence = plain::packed(B, &plain::reversed(B, &chars));
            let written = inside::bytes(&store).to_vec();
            assert_eq!(written, [sequence, vec![0; BEHIND]].concat(), "{self:?}");
            assert!(store.as_slice() == self.view().to_revcomp().as_slice());
            written
        };
        self.writes(&self.numbers(38), room, needed, written);
    }

    /// Into a buffer of `room` bytes, at width 2.
    pub fn unpack(&self, room: usize) {
        let Asked(_, offset, len) = *self;
        let written = || {
            let letters = self.view().unpack();
            let code = |&letter| plain::code(2, letter);
            assert!(letters.iter().map(code).eq(self.characters()));
            letters
        };
        self.writes(&[39, offset, len], room, len, written);
    }

    fn writes(
        &self,
        numbers: &[usize],
        room: usize,
        needed: usize,
        written: impl FnOnce() -> Vec<u8>,
    ) {
        let mut out = out(room, 238);
        let refusal = number(&[self.bad_view(), no_room(room, needed)]);
        if refusal == 0 {
            let written = written();
            out[..written.len()].copy_from_slice(&written);
        }
        case(numbers, &with_bytes(&[refusal], &out));
    }
}

fn ahead<const B: usize>(chars: &[u8]) -> u128 {
    plain::word(B, chars)
}

fn back<const B: usize>(chars: &[u8]) -> u128 {
    plain::word(B, &plain::reversed(B, chars))
}

impl<const B: usize> Debug for Asked<'_, B> {
    fn fmt(&self, f: &mut std::fmt::Formatter) -> std::fmt::Result {
        write!(f, "width {B}, offset {}, length {}", self.1, self.2)
    }
}
