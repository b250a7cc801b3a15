//! Calls on a store: the third buffer and a length. Letters and views come from the first buffer.
//!
//! The buffer after a call is the plain reading's. Its sequence and the 48 zeros are asserted to be the original's, in
//! ways on which that is right: the store's characters packed afresh, then the call itself, at width 1 with T for U in its
//! letters; push_seq of the view's characters alone, normalised, zeros around them. For clear the original's is a new
//! store. A cut store, and an overwritten one as far as its characters go (overwriting leaves stray bits), is one packed
//! afresh.

use super::lines::{case, first, out, with_bytes};
use super::original::{afresh, characters, clean, view, with_t};
use super::plain::{self, per, up};
use super::refusals::{BEHIND, bad_range, bad_store, bad_view, no_room, number};
use crate::SeqVec;
use crate::packed_seq::{Bits, PackedSeqVecBase, SupportedBits, inside};

pub struct Store<const B: usize> {
    pub bytes: Vec<u8>,
    pub len: usize,
}

impl<const B: usize> Store<B>
where
    Bits<B>: SupportedBits,
{
    /// A buffer of one byte throughout, its first `len` characters taken for a store's.
    pub fn new(size: usize, byte: u8, len: usize) -> Self {
        let bytes = out(size, byte);
        Self { bytes, len }
    }

    fn characters(&self) -> Vec<u8> {
        plain::chars(B, &self.bytes, 0, self.len)
    }

    /// Asserts that the buffer starts with all bytes of the original's store.
    fn agrees(&self, original: &PackedSeqVecBase<B>) {
        let size = up(B, self.len) + BEHIND;
        assert_eq!(self.len, original.len());
        assert_eq!(&self.bytes[..size], inside::bytes(original));
    }

    /// The answer and all bytes of the buffer.
    fn print(&self, numbers: &[usize], refusal: u64, answer: &[usize]) {
        let answer = answer.iter().map(|&number| number as u64);
        let answer: Vec<u64> = [refusal].into_iter().chain(answer).collect();
        case(numbers, &with_bytes(&answer, &self.bytes));
    }

    pub fn clear(&mut self) {
        let refusal = number(&[no_room(self.bytes.len(), BEHIND)]);
        self.len = 0;
        if refusal == 0 {
            plain::write_from(B, &mut self.bytes, 0, &[]);
            self.agrees(&PackedSeqVecBase::default());
        }
        self.print(&[50, B], refusal, &[0]);
    }

    pub fn push_ascii(&mut self, letters: &[u8]) {
        first(letters);
        let (size, len) = (self.bytes.len(), self.len);
        let end = len + letters.len();
        let tests = [bad_store(B, size, len), no_room(size, up(B, end) + BEHIND)];
        let refusal = number(&tests);
        let mut answer = [0, 0, len];
        if refusal == 0 && letters.is_empty() {
            answer = [len, len, len];
        } else if refusal == 0 {
            let mut original = afresh::<B>(&self.characters());
            let codes: Vec<u8> = letters.iter().map(|&l| plain::code(B, l)).collect();
            plain::write_from(B, &mut self.bytes, len, &codes);
            self.len = end;
            let asked = match B {
                1 => letters.iter().copied().map(with_t).collect(),
                _ => letters.to_vec(),
            };
            assert_eq!(original.push_ascii(&asked), len..end);
            self.agrees(&original);
            answer = [len, end, end];
        }
        self.print(&[51, B, len], refusal, &answer);
    }

    pub fn push_seq(&mut self, bytes: &[u8], offset: usize, n: usize) {
        first(bytes);
        let (size, len) = (self.bytes.len(), self.len);
        let (start, _) = plain::gapped(B, len, offset, &[]);
        let tests = [
            bad_store(B, size, len),
            bad_view(B, bytes, offset, n),
            no_room(size, up(B, start + n) + BEHIND),
        ];
        let refusal = number(&tests);
        let mut answer = [0, 0, len];
        if refusal == 0 {
            let mut original = afresh::<B>(&self.characters());
            let chars = characters(view::<B>(bytes, offset, n));
            let (_, appended) = plain::gapped(B, len, offset, &chars);
            plain::write_from(B, &mut self.bytes, len, &appended);
            self.len = start + n;
            let offset = offset % per(B);
            let alone = clean(B, &chars, offset);
            assert_eq!(original.push_seq(view(&alone, offset, n)), start..start + n);
            self.agrees(&original);
            answer = [start, start + n, start + n];
        }
        self.print(&[52, B, len, offset, n], refusal, &answer);
    }

    pub fn overwrite(&mut self, start: usize, letters: &[u8]) {
        first(letters);
        let len = self.len;
        let tests = [
            bad_store(B, self.bytes.len(), len),
            bad_range(start + letters.len() > len),
        ];
        let refusal = number(&tests);
        if refusal == 0 {
            let codes: Vec<u8> = letters.iter().map(|&l| plain::code(B, l)).collect();
            let mut chars = self.characters();
            chars[start..start + letters.len()].copy_from_slice(&codes);
            plain::put(B, &mut self.bytes, start, &codes);
            assert_eq!(
                self.characters(),
                characters(afresh::<B>(&chars).as_slice())
            );
        }
        self.print(&[53, B, len, start], refusal, &[len]);
    }

    pub fn cut(&mut self, m: usize) {
        let len = self.len;
        let tests = [bad_store(B, self.bytes.len(), len), bad_range(m > len)];
        let refusal = number(&tests);
        if refusal == 0 {
            plain::write_from(B, &mut self.bytes, m, &[]);
            self.len = m;
            self.agrees(&afresh(&self.characters()));
        }
        self.print(&[54, B, len, m], refusal, &[self.len]);
    }
}
