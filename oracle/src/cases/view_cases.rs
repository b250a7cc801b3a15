//! Which views are asked, and what of them.

use super::lines::{HUGE, first};
use super::plain::{per, up};
use super::refusals::BEHIND;
use super::samples::{dressed, sample};
use super::views::Asked;
use crate::packed_seq::{Bits, SupportedBits};
use std::collections::BTreeSet;

const LENGTHS: [usize; 33] = [
    0, 1, 2, 3, 4, 5, 7, 8, 9, 15, 16, 17, 28, 29, 30, 31, 32, 33, 56, 57, 58, 60, 61, 62, 63, 64,
    65, 120, 121, 122, 127, 128, 129,
];

pub fn print() {
    first(&sample());
    tour::<2>();
    tour::<1>();
    slices::<2>();
    slices::<1>();
    for size in [120, 49, 48, 47, 0] {
        first(&sample()[..size]);
        edges::<2>(&sample()[..size]);
        edges::<1>(&sample()[..size]);
    }
    strays::<2>();
    strays::<1>();
    rests::<2>();
    rests::<1>();
}

/// Every offset up to 2 C8, with lengths on both sides of what a word, or a read of the original, holds.
fn tour<const B: usize>()
where
    Bits<B>: SupportedBits,
{
    for offset in 0..=2 * per(B) {
        for len in LENGTHS {
            let asked = Asked::<B>(&sample(), offset, len);
            for i in BTreeSet::from([0, len / 2, len.saturating_sub(1)]) {
                asked.get(i);
            }
            // Lengths further beyond a word are refused likewise.
            if len <= 64 / B + 1 {
                asked.words_64();
            }
            if len <= 128 / B + 1 {
                asked.words_128();
            }
            asked.reversed(up(B, len) + BEHIND + offset % 3);
            if B == 2 {
                asked.unpack(len + offset % 3);
            }
        }
    }
}

fn slices<const B: usize>()
where
    Bits<B>: SupportedBits,
{
    for offset in [0, 1, per(B) - 1, per(B), per(B) + 1, 2 * per(B)] {
        for len in [0, 1, 9, 33] {
            let asked = Asked::<B>(&sample(), offset, len);
            asked.get(len);
            let half = len / 2;
            for (start, end) in BTreeSet::from([(0, len), (half, len), (len, len)]) {
                for i in BTreeSet::from([0, (end - start).saturating_sub(1), end - start]) {
                    asked.get_of_slice(start, end, i);
                }
            }
            for (start, end) in [(0, len + 1), (half + 1, half), (len + 1, len + 1)] {
                asked.get_of_slice(start, end, 0);
            }
        }
    }
    let asked = Asked::<B>(&sample(), 3, 20);
    asked.get(HUGE);
    for (start, end, i) in [(0, HUGE, 0), (HUGE, 20, 0), (HUGE, HUGE, 0), (5, 20, HUGE)] {
        asked.get_of_slice(start, end, i);
    }
}

/// Views that just fit, that lack one character, and whose sums are beyond 32 bits.
fn edges<const B: usize>(bytes: &[u8])
where
    Bits<B>: SupportedBits,
{
    let most = bytes.len().saturating_sub(BEHIND) * per(B);
    let less = most.saturating_sub(1);
    let near = [
        (0, most),
        (0, most + 1),
        (most, 0),
        (most + 1, 0),
        (1, less),
        (2, less),
    ];
    let far = [(HUGE, 0), (HUGE, 1), (0, HUGE), (1, HUGE), (HUGE, HUGE)];
    let far = far.into_iter().filter(|_| most > 0);
    for (offset, len) in BTreeSet::from(near).into_iter().chain(far) {
        let asked = Asked::<B>(bytes, offset, len);
        for i in BTreeSet::from([0, len.saturating_sub(1), len]) {
            asked.get(i);
        }
        asked.get_of_slice(0, len, 0);
        asked.words();
        let needed = (up(B, len) + BEHIND).min(200);
        asked.reversed(needed);
        asked.reversed(needed - 1);
        if B == 2 {
            for room in BTreeSet::from([len.min(300), len.clamp(1, 300) - 1]) {
                asked.unpack(room);
            }
        }
    }
}

/// Characters all 0 among bits that are all set, and the reverse: a stray bit that counts shows.
fn strays<const B: usize>()
where
    Bits<B>: SupportedBits,
{
    for offset in 0..per(B) {
        for len in [0, 1, 64 / B - 3, 64 / B, 128 / B] {
            for (char, stray) in [(0, 255), ((1 << B) - 1, 0)] {
                let bytes = dressed(B, &vec![char; len], offset, stray);
                first(&bytes);
                let asked = Asked::<B>(&bytes, offset, len);
                asked.words();
                asked.reversed(up(B, len) + BEHIND + 2);
                if B == 2 {
                    asked.unpack(len + 2);
                }
            }
        }
    }
}

/// Reversed below a whole word: each of the 256 bytes, seven in a view, and each count of characters behind a word.
fn rests<const B: usize>()
where
    Bits<B>: SupportedBits,
{
    let mut bytes: Vec<u8> = (0..=255).collect();
    bytes.extend([0x5a; BEHIND]);
    first(&bytes);
    let ask = |offset, len| Asked::<B>(&bytes, offset, len).reversed(up(B, len) + BEHIND);
    for byte in (0..249).step_by(7).chain([249]) {
        ask(byte * per(B), 7 * per(B));
    }
    for rest in 1..64 / B {
        ask(rest, 64 / B + rest);
    }
}
