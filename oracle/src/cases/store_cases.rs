//! Which calls are made on stores: histories from a clear on, each alignment on a buffer of stray bits, both sides of
//! each refusal, and letters of RNA.

use super::lines::HUGE;
use super::plain::per;
use super::refusals::BEHIND;
use super::samples::{Dice, sample};
use super::stores::Store;
use crate::packed_seq::{Bits, SupportedBits};

const LETTERS: &[u8; 16] = b"GNcTA-aUgCntRGT\0";

pub fn print() {
    for seed in 0..12 {
        history::<2>(seed, 40);
        history::<1>(seed, 40);
    }
    alignments::<2>();
    alignments::<1>();
    rooms::<2>();
    rooms::<1>();
    edges::<2>();
    edges::<1>();
    rna::<2>();
    rna::<1>();
}

/// A run of calls on one buffer. It is so small that pushes fail for want of room.
pub fn history<const B: usize>(seed: usize, calls: usize)
where
    Bits<B>: SupportedBits,
{
    let mut dice = Dice(seed as u64);
    let size = BEHIND + 3 + 5 * (seed % 12);
    let mut store = Store::<B>::new(size, [238, 255, 0, 90][seed % 4], 0);
    store.clear();
    for _ in 0..calls {
        step(&mut store, &mut dice);
    }
}

fn step<const B: usize>(store: &mut Store<B>, dice: &mut Dice)
where
    Bits<B>: SupportedBits,
{
    let len = store.len;
    match dice.below(48) {
        0..14 => {
            let n = dice.below(14);
            store.push_ascii(&dice.letters(n));
        }
        14..28 => {
            let size = BEHIND + 1 + dice.below(8);
            let most = (size - BEHIND) * per(B);
            let offset = dice.below(most.min(2 * per(B)) + 1);
            store.push_seq(&dice.bytes(size), offset, dice.below(most - offset + 1));
        }
        28..37 => {
            let start = dice.below(len + 1);
            let n = dice.below((len - start).min(9) + 1);
            store.overwrite(start, &dice.letters(n));
        }
        37..42 => store.cut(len - dice.below(len.min(20) + 1)),
        42 => store.cut(len + 1),
        43 => store.overwrite(len, b"C"),
        44 => store.push_seq(&dice.bytes(BEHIND + 2), 3, 2 * per(B) - 2),
        45 => store.push_ascii(&dice.letters(400)),
        46 => store.push_seq(&dice.bytes(BEHIND + 100), 1, 100),
        _ => store.clear(),
    }
}

/// A view that starts at each place of a byte, letters, a cut and an overwrite at each place of a byte.
fn alignments<const B: usize>()
where
    Bits<B>: SupportedBits,
{
    let c8 = per(B);
    for len in c8..2 * c8 {
        for offset in 0..c8 {
            for n in [0, 3, c8 + 1] {
                let mut store = Store::<B>::new(BEHIND + 6, 238, len);
                store.push_seq(&sample(), offset + len % 3 * c8, n);
            }
        }
        for n in [0, 1, 2 * c8 - len, c8 + 1] {
            let mut store = Store::<B>::new(BEHIND + 6, 255, len);
            store.push_ascii(&LETTERS[..n]);
        }
        for start in 0..=len {
            let mut store = Store::<B>::new(BEHIND + 3, 90, len);
            store.overwrite(start, &LETTERS[..(len - start).min(5)]);
        }
        for m in 0..=len {
            let mut store = Store::<B>::new(BEHIND + 3, 255, len);
            store.cut(m);
        }
    }
}

/// Pushes that just fit, and that lack one byte.
fn rooms<const B: usize>()
where
    Bits<B>: SupportedBits,
{
    let c8 = per(B);
    for len in 0..=c8 {
        for n in [2 * c8 - len, 2 * c8 - len + 1] {
            let mut store = Store::<B>::new(BEHIND + 2, 238, len);
            store.push_ascii(&LETTERS[..n.min(16)]);
        }
        for offset in 0..c8 {
            let start = len.next_multiple_of(c8) + offset;
            for n in [3 * c8 - start, 3 * c8 - start + 1] {
                let mut store = Store::<B>::new(BEHIND + 3, 238, len);
                store.push_seq(&sample(), offset, n);
            }
        }
    }
}

fn edges<const B: usize>()
where
    Bits<B>: SupportedBits,
{
    for size in [0, 47, 48, 49] {
        Store::<B>::new(size, 238, 0).clear();
    }
    let c8 = per(B);
    let stores = [(0, 0), (47, 0), (48, 0), (48, 1), (49, c8), (49, c8 + 1)];
    for (size, len) in stores.into_iter().chain([(60, HUGE)]) {
        let store = || Store::<B>::new(size, 238, len);
        store().push_ascii(b"");
        store().push_ascii(b"G");
        for (offset, n) in [(0, 0), (0, 2), (72 * c8, 0), (72 * c8, 1), (HUGE, HUGE)] {
            store().push_seq(&sample(), offset, n);
        }
        for start in [len - len.min(1), len, HUGE] {
            store().overwrite(start, b"");
            store().overwrite(start, b"N");
        }
        for m in [0, len, HUGE.min(len + 1), HUGE] {
            store().cut(m);
        }
    }
    // A view that is refused where there would be no room either; views of 48 bytes and of fewer.
    let mut store = Store::<B>::new(50, 238, c8);
    store.push_seq(&sample(), 1, 72 * c8 - 1);
    store.push_seq(&sample(), 2, 72 * c8 - 1);
    store.push_seq(&sample(), 0, HUGE);
    store.push_seq(&sample()[..48], 0, 0);
    store.push_seq(&sample()[..47], 0, 0);
    store.overwrite(c8, b"");
    store.overwrite(c8 + 1, b"");
    store.overwrite(HUGE, &[b'N'; 100]);
}

/// U and u at each place of a byte, alone and among letters that are clear or ambiguous.
fn rna<const B: usize>()
where
    Bits<B>: SupportedBits,
{
    let c8 = per(B);
    let store = |len| Store::<B>::new(BEHIND + 4, 90, len);
    for u in *b"Uu" {
        for place in 0..c8 {
            store(place).push_ascii(&[u]);
            store(2 * c8).overwrite(place, &[u]);
            for other in *b"AN" {
                let mut letters = vec![other; 2 * c8];
                letters[c8 + place] = u;
                store(0).push_ascii(&letters);
                store(3).push_ascii(&letters);
                store(2 * c8).overwrite(0, &letters);
            }
        }
    }
}
