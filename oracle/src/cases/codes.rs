//! Letters and words. For the strict code and the flag of U and u the original, which refuses and flags them, is asked with
//! T and t. Where BAD_WORD (5) and NO_ROOM (9) both apply, 5 is given, as 01 orders them.

use super::lines::{HUGE, case, first, halves, out, split, with_bytes};
use super::original::with_t;
use super::refusals::{answer, bad_letter, bad_word, no_room, number};
use crate::packed_seq::{
    char_is_ambiguous, complement_base, complement_char, pack_char, pack_char_lossy,
    pack_kmer_lossy, pack_kmer_u128_lossy, rev_u64, rev_u128, revcomp_u64, revcomp_u128,
    unpack_base, unpack_kmer, unpack_kmer_u128,
};

const WORDS: [u64; 6] = [
    0,
    4,
    1,
    0x0123456789abcdef,
    0xffffffffffffffff,
    0x9e3779b97f4a7c15,
];

pub fn print() {
    letters();
    packing();
    unpacking();
    reversing();
}

fn letters() {
    for b in 0..=255 {
        let strict = [bad_letter(!b"ACGTUacgtu".contains(&b))];
        let capital = [bad_letter(!b"ACGT".contains(&b))];
        let numbers = [
            answer(&strict, || [pack_char(with_t(b))]),
            vec![
                pack_char_lossy(b).into(),
                char_is_ambiguous(with_t(b)).into(),
            ],
            answer(&capital, || [complement_char(b)]),
        ];
        case(&[10, b.into()], &numbers.concat());
    }
    for c in 0..=255 {
        let tests = [bad_letter(c > 3)];
        let letter = answer(&tests, || [unpack_base(c)]);
        let complement = answer(&tests, || [complement_base(c)]);
        case(&[11, c.into()], &[letter, complement].concat());
    }
}

fn packing() {
    let text: [u8; 66] = std::array::from_fn(|i| ((i * 37 + 11) % 256) as u8);
    for n in 0..=66 {
        packed(&text[..n]);
    }
}

pub fn packed(letters: &[u8]) {
    let n = letters.len();
    first(letters);
    if n <= 34 {
        let answer = answer(&[bad_word(n, 0, 32)], || [pack_kmer_lossy(letters)]);
        case(&[20], &answer);
    }
    let answer = answer(&[bad_word(n, 0, 64)], || {
        halves(pack_kmer_u128_lossy(letters))
    });
    case(&[21], &answer);
}

/// Each word with the one that follows it, as low and high half.
fn pairs() -> impl Iterator<Item = (u64, u64)> {
    (0..WORDS.len()).map(|i| (WORDS[i], WORDS[(i + 1) % WORDS.len()]))
}

fn joined(low: u64, high: u64) -> u128 {
    u128::from(high) << 64 | u128::from(low)
}

/// The numbers of a case: the call, a length, a word in one half or two.
fn asked(call: usize, len: usize, word: &[u64]) -> Vec<usize> {
    let word = word.iter().flat_map(|&half| split(half));
    [call, len].into_iter().chain(word).collect()
}

fn unpacking() {
    for low in WORDS {
        for k in (0..=34).chain([HUGE]) {
            unpacked_u64(low, k, 36);
        }
    }
    for (low, high) in pairs() {
        for k in (0..=66).chain([HUGE]) {
            unpacked_u128(low, high, k, 68);
        }
    }
    // Rooms that lack one byte, and that just suffice.
    for k in 1..=33 {
        unpacked_u64(WORDS[3], k, k - 1);
        unpacked_u64(WORDS[3], k, k);
    }
    for k in 1..=65 {
        unpacked_u128(WORDS[3], WORDS[4], k, k - 1);
        unpacked_u128(WORDS[3], WORDS[4], k, k);
    }
}

pub fn unpacked_u64(word: u64, k: usize, room: usize) {
    unpacked(&asked(22, k, &[word]), &unpack_kmer(word), k, room);
}

pub fn unpacked_u128(low: u64, high: u64, k: usize, room: usize) {
    let letters = unpack_kmer_u128(joined(low, high));
    unpacked(&asked(23, k, &[low, high]), &letters, k, room);
}

fn unpacked(numbers: &[usize], letters: &[u8], k: usize, room: usize) {
    let mut out = out(room, 238);
    let refusal = number(&[bad_word(k, 0, letters.len()), no_room(room, k)]);
    if refusal == 0 {
        out[..k].copy_from_slice(&letters[..k]);
    }
    case(numbers, &with_bytes(&[refusal], &out));
}

fn reversing() {
    for word in WORDS {
        for len in (0..=34).chain([HUGE]) {
            revcomp(word, len);
        }
        for len in (0..=66).chain([HUGE]) {
            rev(word, len);
        }
    }
    for (low, high) in pairs() {
        for len in (0..=66).chain([HUGE]) {
            revcomp_wide(low, high, len);
        }
        for len in (0..=130).chain([HUGE]) {
            rev_wide(low, high, len);
        }
    }
}

pub fn revcomp(word: u64, len: usize) {
    let answer = answer(&[bad_word(len, 1, 32)], || [revcomp_u64(word, len)]);
    case(&asked(24, len, &[word]), &answer);
}

pub fn rev(word: u64, len: usize) {
    let answer = answer(&[bad_word(len, 1, 64)], || [rev_u64(word, len)]);
    case(&asked(26, len, &[word]), &answer);
}

pub fn revcomp_wide(low: u64, high: u64, len: usize) {
    let word = joined(low, high);
    let answer = answer(&[bad_word(len, 1, 64)], || halves(revcomp_u128(word, len)));
    case(&asked(25, len, &[low, high]), &answer);
}

pub fn rev_wide(low: u64, high: u64, len: usize) {
    let word = joined(low, high);
    let answer = answer(&[bad_word(len, 1, 128)], || halves(rev_u128(word, len)));
    case(&asked(27, len, &[low, high]), &answer);
}
