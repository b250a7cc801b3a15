//! A plain reading of document 01 on lists of characters. It asks the original nothing.
//!
//! What 01 adds, and what a store's buffer holds after a call, is answered from here. Wherever the original gives an
//! answer of views, order, stores or streams too, the two are asserted to agree.

use super::refusals::BEHIND;

/// C8, the characters in a byte.
pub fn per(w: usize) -> usize {
    8 / w
}

/// The bytes that n characters take.
pub fn up(w: usize, n: usize) -> usize {
    n.div_ceil(per(w))
}

/// The n characters from character o on.
pub fn chars(w: usize, bytes: &[u8], o: usize, n: usize) -> Vec<u8> {
    let char_at = |i| bytes[i / per(w)] >> (w * (i % per(w))) & ((1 << w) - 1);
    (o..o + n).map(char_at).collect()
}

/// Puts characters at a place; every other bit stays.
pub fn put(w: usize, bytes: &mut [u8], place: usize, chars: &[u8]) {
    for (i, char) in (place..).zip(chars) {
        let bit = w * (i % per(w));
        let byte = &mut bytes[i / per(w)];
        *byte = *byte & !(((1 << w) - 1) << bit) | char << bit;
    }
}

/// The bytes of these characters, unused bits zero.
pub fn packed(w: usize, chars: &[u8]) -> Vec<u8> {
    let mut bytes = vec![0; up(w, chars.len())];
    put(w, &mut bytes, 0, chars);
    bytes
}

/// The word of at most 128 bits, first character lowest.
pub fn word(w: usize, chars: &[u8]) -> u128 {
    let chars = chars.iter().rev();
    chars.fold(0, |word, &char| word << w | u128::from(char))
}

/// In reverse, bases complemented.
pub fn reversed(w: usize, chars: &[u8]) -> Vec<u8> {
    let complement = if w == 2 { 2 } else { 0 };
    chars.iter().rev().map(|char| char ^ complement).collect()
}

/// The lossy code of a letter, or its flag.
pub fn code(w: usize, letter: u8) -> u8 {
    match w {
        1 => !b"ACGTUacgtu".contains(&letter) as u8,
        _ => letter / 2 % 4,
    }
}

/// The count of equal leading characters. Their order is that of slices.
pub fn common(a: &[u8], b: &[u8]) -> usize {
    a.iter().zip(b).take_while(|(x, y)| x == y).count()
}

/// The least place where a pattern stands in a text.
pub fn place(pattern: &[u8], text: &[u8]) -> Option<usize> {
    (0..=text.len()).find(|&p| text[p..].starts_with(pattern))
}

/// The characters below a place, then these, then zeros up to the end of the 48th byte behind.
pub fn write_from(w: usize, bytes: &mut [u8], place: usize, chars: &[u8]) {
    let end = place + chars.len();
    let stop = (up(w, end) + BEHIND) * per(w);
    put(w, bytes, place, chars);
    put(w, bytes, end, &vec![0; stop - end]);
}

/// The characters that push_seq appends: the gap and the view's. The start is behind the gap.
pub fn gapped(w: usize, len: usize, o: usize, view: &[u8]) -> (usize, Vec<u8>) {
    let start = len.next_multiple_of(per(w)) + o % per(w);
    let gap = if w == 1 { 1 } else { 0 };
    (start, [&vec![gap; start - len], view].concat())
}

/// The numbers of a lane stream: n, the steps and the padding.
pub fn lanes(w: usize, len: usize, context: usize, factor: usize) -> (usize, usize, usize) {
    if len < context {
        return (0, 0, 0);
    }
    let s = len - context + 1;
    let n = s.div_ceil(8).next_multiple_of(factor * per(w));
    (n, n + context - 1, 8 * n - s)
}

/// All entries of a lane stream, its characters `delay` steps late.
pub fn entries(chars: &[u8], n: usize, steps: usize, delay: usize) -> Vec<u64> {
    let lane = |j, l| match usize::checked_sub(j, delay) {
        Some(back) => chars.get(l * n + back).copied().unwrap_or(0).into(),
        None => 0,
    };
    let step = |j| (0..8).map(move |l| lane(j, l));
    (0..steps).flat_map(step).collect()
}

/// All entries of the windows of k flags, from step `skip` on.
pub fn windows(flags: &[u8], n: usize, steps: usize, k: usize, skip: usize) -> Vec<u64> {
    let lane = |j: usize, l| {
        let window = l * n + j.saturating_sub(k - 1)..=l * n + j;
        let flagged = window.into_iter().any(|i| flags.get(i) == Some(&1));
        if flagged { u32::MAX.into() } else { 0 }
    };
    let step = |j| (0..8).map(move |l| lane(j, l));
    (skip..steps).flat_map(step).collect()
}
