//! Which streams are asked. All bits around their views are set. An answer has at most 500 entries.

use super::lines::{HUGE, first};
use super::plain::per;
use super::refusals::BEHIND;
use super::samples::{Dice, dressed};
use super::streams::{LIMIT, Stream};
use crate::packed_seq::{Bits, SupportedBits};
use std::collections::BTreeSet;

const MOST: usize = 500;

pub fn print() {
    filled::<2>();
    filled::<1>();
    windows();
    edges::<2>();
    edges::<1>();
    window_edges();
}

/// Lengths around none, the context and eight places, and around what one n and the next hold.
fn lengths(w: usize, context: usize, factor: usize) -> BTreeSet<usize> {
    let round = 8 * factor * per(w);
    let places = [
        0,
        1,
        2,
        8,
        9,
        round - 1,
        round,
        round + 1,
        2 * round,
        2 * round + 1,
    ];
    let around = places.map(|s| s + context - 1);
    BTreeSet::from([0, 1]).into_iter().chain(around).collect()
}

/// Offsets run through 0 to 2 C8.
fn filled<const B: usize>()
where
    Bits<B>: SupportedBits,
{
    let mut dice = Dice(60);
    let mut offsets = (0..=2 * per(B)).cycle();
    for factor in [1, 2] {
        for context in [1, 2, 3, 9, 17, 33] {
            for len in lengths(B, context, factor) {
                let offset = offsets.next().expect("a cycle");
                let bytes = dressed(B, &dice.chars(B, len), offset, 255);
                first(&bytes);
                let stream = Stream::<B>::new(&bytes, offset, len, context, factor);
                filled_late(stream);
            }
        }
    }
}

/// The plain stream, and delays at each kind of place, as far as entries are few enough.
fn filled_late<const B: usize>(stream: Stream<B>)
where
    Bits<B>: SupportedBits,
{
    let (_, steps, _) = stream.lanes();
    if 8 * steps <= MOST {
        stream.plain();
    }
    if steps == 0 {
        stream.one(1);
        return stream.two(0, LIMIT);
    }
    let last = steps - 1;
    let even = stream.len.is_multiple_of(2);
    if 16 * steps <= MOST && stream.context % 8 == 1 {
        let delays = if even {
            [0, 18, steps]
        } else {
            [1, last, LIMIT]
        };
        for delay in delays {
            stream.one(delay);
        }
    }
    if 24 * steps <= MOST && stream.context <= 3 {
        let even_delays = [(0, 0), (1, 9), (last, LIMIT)];
        let odd_delays = [(0, 1), (5, 5), (2, steps + 2)];
        for (d1, d2) in if even { even_delays } else { odd_delays } {
            stream.two(d1, d2);
        }
    }
}

/// Few flags, so that windows differ.
fn windows() {
    let mut dice = Dice(63);
    let mut offsets = (0..=16).cycle();
    for (k, context) in [
        (1, 1),
        (1, 4),
        (2, 1),
        (2, 2),
        (3, 9),
        (8, 8),
        (31, 1),
        (31, 31),
        (33, 40),
        (95, 96),
        (96, 1),
        (96, 96),
    ] {
        for len in lengths(1, context, 1) {
            let offset = offsets.next().expect("a cycle");
            let flags: Vec<u8> = (0..len).map(|_| (dice.below(12) == 0) as u8).collect();
            let bytes = dressed(1, &flags, offset, 255);
            first(&bytes);
            let stream = Stream::<1>::new(&bytes, offset, len, context, 1);
            let (_, steps, _) = stream.lanes();
            for skip in BTreeSet::from([0, k.max(2) - 2, k - 1, context - 1, steps, steps + 1]) {
                if 8 * steps.saturating_sub(skip) <= MOST {
                    stream.windows(k, skip);
                }
            }
        }
    }
}

/// Contexts, factors and delays within their ranges and outside; views that just fit, and that do not.
fn edges<const B: usize>()
where
    Bits<B>: SupportedBits,
{
    let bytes = dressed(B, &Dice(10).chars(B, 10), 3, 255);
    let most = (bytes.len() - BEHIND) * per(B) - 3;
    first(&bytes);
    let ask = |offset, len, context, factor, d1, d2| {
        let stream = Stream::<B>::new(&bytes, offset, len, context, factor);
        stream.plain();
        stream.one(d1);
        stream.two(d1, d2);
    };
    for context in [0, 1, 10, 11, LIMIT, LIMIT + 1, HUGE] {
        ask(3, 10, context, 1, 0, 2);
    }
    for factor in [0, 1, 2, 3, HUGE] {
        ask(3, 10, 4, factor, 1, 1);
    }
    for (d1, d2) in [
        (2, 1),
        (LIMIT, LIMIT - 1),
        (LIMIT - 1, LIMIT),
        (LIMIT + 1, LIMIT + 1),
    ] {
        ask(3, 10, 4, 1, d1, d2);
    }
    for (d1, d2) in [(0, LIMIT + 1), (HUGE, HUGE), (HUGE, 0)] {
        ask(3, 10, 4, 1, d1, d2);
    }
    for (offset, len) in [(3, most), (3, most + 1), (4, most), (HUGE, 0), (0, HUGE)] {
        ask(offset, len, 3, 1, 0, 1);
        ask(offset, len, 0, 3, 1, 0);
    }
}

/// The same for windows, their k and their skip, and skips and contexts around the least of a whole window.
fn window_edges() {
    let bytes = dressed(1, &[0, 1, 0, 0, 0, 0, 1, 0, 0, 0], 3, 255);
    let most = (bytes.len() - BEHIND) * 8 - 3;
    first(&bytes);
    let ask = |offset, len, context, k, skip| {
        let stream = Stream::<1>::new(&bytes, offset, len, context, 1);
        stream.windows(k, skip);
    };
    for k in [0, 1, 2, 31, 95, 96, 97, HUGE] {
        ask(3, 10, 3, k, 0);
        ask(3, 10, 11, k, 0);
    }
    for context in [0, 1, 10, 11, LIMIT, LIMIT + 1, HUGE] {
        ask(3, 10, context, 4, 0);
        ask(3, 10, context, 4, 1);
    }
    for skip in [9, 10, 11, 12, HUGE] {
        ask(3, 10, 3, 2, skip);
    }
    for (offset, len) in [(3, most), (3, most + 1), (4, most), (HUGE, 0), (0, HUGE)] {
        ask(offset, len, 3, 2, 0);
        ask(offset, len, 0, 97, HUGE);
    }
    for k in [1, 2, 3, 8, 10, 11] {
        for context in [k.max(2) - 1, k, k + 1] {
            let (_, steps, _) = Stream::<1>::new(&bytes, 3, 10, context, 1).lanes();
            let around = [
                0,
                1,
                k.max(2) - 2,
                k - 1,
                k,
                steps.max(1) - 1,
                steps,
                steps + 1,
            ];
            for skip in BTreeSet::from(around) {
                ask(3, 10, context, k, skip);
            }
        }
    }
}
