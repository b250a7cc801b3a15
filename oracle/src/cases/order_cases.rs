//! Which pairs of views are compared, and which patterns are sought in which texts.

use super::lines::{HUGE, first, second};
use super::order::Pair;
use super::plain::{chars, per, put, up};
use super::refusals::BEHIND;
use super::samples::{Dice, dressed, sample};
use crate::packed_seq::{Bits, SupportedBits};
use std::collections::BTreeSet;
use std::ops::Range;

const COMMON: [usize; 10] = [0, 1, 8, 29, 30, 57, 58, 64, 65, 115];

pub fn print() {
    first(&sample());
    comparisons::<2>();
    comparisons::<1>();
    long::<2>();
    long::<1>();
    finds::<2>();
    finds::<1>();
    edges::<2>();
    edges::<1>();
}

/// Views that agree, or differ in one character, of equal lengths and of lengths that differ by one. The second
/// buffer is the first one moved up by two characters.
fn comparisons<const B: usize>()
where
    Bits<B>: SupportedBits,
{
    let buffer = sample();
    for (ao, bo) in [(1, 3), (10, 12)] {
        for len in COMMON {
            let last = len.saturating_sub(1);
            let places = BTreeSet::from([0, len / 2, last, len])
                .into_iter()
                .map(Some);
            for differs in [None].into_iter().chain(places) {
                let mut moved = buffer.map(|_| 0);
                put(B, &mut moved, 2, &chars(B, &buffer, 0, 120 * per(B) - 2));
                if let Some(place) = differs {
                    change(B, &mut moved, bo + place, 1 + place % ((1 << B) - 1));
                }
                second(&moved);
                for (al, bl) in [(len, len), (len, len + 1), (len + 1, len)] {
                    let pair = Pair::<B> {
                        first: (&buffer, ao, al),
                        second: (&moved, bo, bl),
                    };
                    pair.compare();
                    if differs.is_none() && al != bl {
                        pair.least();
                    }
                }
            }
        }
    }
}

/// Xors one character.
fn change(w: usize, bytes: &mut [u8], place: usize, with: usize) {
    let changed = chars(w, bytes, place, 1)[0] ^ with as u8;
    put(w, bytes, place, &[changed]);
}

/// Long common starts at offsets up to 2 C8, every bit outside the second view another one than the first buffer's. The
/// original compares 56 / w + 1 characters at a time.
fn long<const B: usize>()
where
    Bits<B>: SupportedBits,
{
    let buffer = sample();
    for len in (28..=33).chain(56..=65).chain(120..=129) {
        let (ao, bo) = (len % (2 * per(B) + 1), (3 * len + 1) % (2 * per(B) + 1));
        let places = BTreeSet::from([len - 1, (56 / B + 1).min(len - 1)]);
        for differs in [None].into_iter().chain(places.into_iter().map(Some)) {
            let mut other = buffer.map(|byte| !byte)[..up(B, bo + len) + BEHIND].to_vec();
            put(B, &mut other, bo, &chars(B, &buffer, ao, len));
            if let Some(place) = differs {
                change(B, &mut other, bo + place, 1 + len % ((1 << B) - 1));
            }
            second(&other);
            let pair = Pair::<B> {
                first: (&buffer, ao, len),
                second: (&other, bo, len),
            };
            pair.compare();
            pair.least();
        }
    }
}

/// Patterns and texts, characters as digits.
const SOUGHT: [(&str, &str); 14] = [
    ("", ""),
    ("", "0110"),
    ("1", ""),
    ("1", "1"),
    ("0", "1"),
    ("11", "1"),
    ("0001", "000001"),
    ("0001", "0000001000"),
    ("0001", "000000"),
    ("1011", "1010110111"),
    ("01", "1111111101"),
    ("110", "11111111111111110"),
    ("10110", "10110"),
    ("10110", "1011"),
];

fn finds<const B: usize>()
where
    Bits<B>: SupportedBits,
{
    let digits = |text: &str| text.bytes().map(|digit| digit - b'0').collect::<Vec<u8>>();
    for (pattern, text) in SOUGHT {
        for (po, to) in [(0, 0), (1, per(B) - 1), (per(B) + 1, 2)] {
            let text = digits(text);
            sought::<B>(&digits(pattern), po, &text, to, 0..text.len());
        }
    }
    let text = Dice(43).chars(B, 150);
    for len in [1, 7, 29, 33, 57, 65, 128] {
        for place in [0, 1, (150 - len) / 2, 150 - len] {
            let pattern = &text[place..place + len];
            let (po, to) = (place % per(B), len % per(B));
            sought::<B>(pattern, po, &text, to, 0..150);
            // The last character of the pattern stands behind the text's end; the first one before its start.
            sought::<B>(pattern, po, &text, to, 0..place + len - 1);
            sought::<B>(pattern, po, &text, to, place + 1..150);
        }
    }
}

/// The text is a range of the characters that stand at `to` in the second buffer. Bits around the pattern are set, those
/// around the text's characters are not.
fn sought<const B: usize>(pattern: &[u8], po: usize, text: &[u8], to: usize, range: Range<usize>)
where
    Bits<B>: SupportedBits,
{
    let (patterns, texts) = (dressed(B, pattern, po, 255), dressed(B, text, to, 0));
    first(&patterns);
    second(&texts);
    let pair = Pair::<B> {
        first: (&patterns, po, pattern.len()),
        second: (&texts, to + range.start, range.len()),
    };
    pair.find();
}

/// Both views just fit or do not; or the first one alone, which is over 48 bytes.
fn edges<const B: usize>()
where
    Bits<B>: SupportedBits,
{
    let (fits, large) = ((1, per(B) - 1), (2, per(B) - 1));
    let bytes = &sample()[..49];
    first(bytes);
    second(bytes);
    for (ao, al) in [fits, large, (0, HUGE), (HUGE, 1)] {
        for (bo, bl) in [fits, large, (0, HUGE), (HUGE, 1)] {
            every(Pair::<B> {
                first: (bytes, ao, al),
                second: (bytes, bo, bl),
            });
        }
    }
    first(&bytes[..48]);
    for (ao, al) in [(0, 0), (0, 1), (1, 0), (HUGE, HUGE)] {
        every(Pair::<B> {
            first: (&bytes[..48], ao, al),
            second: (bytes, fits.0, fits.1),
        });
    }
    first(&bytes[..47]);
    every(Pair::<B> {
        first: (&bytes[..47], 0, 0),
        second: (bytes, 0, 0),
    });
}

fn every<const B: usize>(pair: Pair<B>)
where
    Bits<B>: SupportedBits,
{
    pair.compare();
    pair.find();
    pair.least();
}
