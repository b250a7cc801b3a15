//! What the cases are made of: buffers with stray bits around their views, and numbers that look random.

use super::plain::{put, up};
use super::refusals::BEHIND;
use std::array::from_fn;

/// 120 bytes; byte i is (7 i i + 29 i + 13) mod 256.
pub fn sample() -> [u8; 120] {
    from_fn(|i| ((i * i * 7 + i * 29 + 13) % 256) as u8)
}

/// Just the bytes that a view of these characters needs, all other bits as in `stray`.
pub fn dressed(w: usize, chars: &[u8], offset: usize, stray: u8) -> Vec<u8> {
    let mut bytes = vec![stray; up(w, offset + chars.len()) + BEHIND];
    put(w, &mut bytes, offset, chars);
    bytes
}

/// Numbers that look random, the same in every run.
pub struct Dice(pub u64);

impl Dice {
    /// A number below `bound`.
    pub fn below(&mut self, bound: usize) -> usize {
        let mixed = self.0.wrapping_mul(0x9e3779b97f4a7c15) ^ self.0 >> 29;
        self.0 = mixed.wrapping_add(0x2545f4914f6cdd1d);
        (self.0 >> 33) as usize % bound
    }

    /// A number below one of these bounds.
    pub fn below_one_of<const N: usize>(&mut self, bounds: [usize; N]) -> usize {
        let bound = bounds[self.below(N)];
        self.below(bound)
    }

    pub fn bytes(&mut self, n: usize) -> Vec<u8> {
        (0..n).map(|_| self.below(256) as u8).collect()
    }

    /// Letters, three in sixteen ambiguous.
    pub fn letters(&mut self, n: usize) -> Vec<u8> {
        let letters = b"ACGTacgtACGTNnU-";
        (0..n).map(|_| letters[self.below(16)]).collect()
    }

    pub fn chars(&mut self, w: usize, n: usize) -> Vec<u8> {
        (0..n).map(|_| self.below(1 << w) as u8).collect()
    }
}
