//! What is asked beside the recorded cases: short inputs one and all, and random ones around every boundary. All bits around
//! views are set or random.

use oracle::cases::codes;
use oracle::cases::lines::{first, second};
use oracle::cases::order::Pair;
use oracle::cases::plain::{per, up};
use oracle::cases::refusals::BEHIND;
use oracle::cases::samples::{Dice, dressed};
use oracle::cases::store_cases;
use oracle::cases::stores::Store;
use oracle::cases::streams::{LIMIT, Stream};
use oracle::cases::views::Asked;
use oracle::packed_seq::{Bits, SupportedBits};

pub fn short() {
    short_words();
    short_views::<2>();
    short_views::<1>();
    short_pairs::<2>(3);
    short_pairs::<1>(5);
    short_stores::<2>();
    short_stores::<1>();
    short_rna::<2>();
    short_rna::<1>();
    short_streams::<2>();
    short_streams::<1>();
    short_windows();
}

pub fn random() {
    random_words(&mut Dice(71));
    random_views::<2>(&mut Dice(72), 15000);
    random_views::<1>(&mut Dice(73), 15000);
    random_pairs::<2>(&mut Dice(74), 20000);
    random_pairs::<1>(&mut Dice(75), 20000);
    for seed in 0..3500 {
        store_cases::history::<2>(1000 + seed, 40);
        store_cases::history::<1>(10000 + seed, 40);
    }
    random_streams::<2>(&mut Dice(76), 9000);
    random_streams::<1>(&mut Dice(77), 9000);
    random_windows(&mut Dice(78), 31000);
}

/// All lists of up to `most` items below `kinds`.
fn lists(kinds: usize, most: usize) -> Vec<Vec<u8>> {
    let mut lists = vec![vec![]];
    let mut from = 0;
    for _ in 0..most {
        let until = lists.len();
        for i in from..until {
            for kind in 0..kinds {
                lists.push([&lists[i][..], &[kind as u8]].concat());
            }
        }
        from = until;
    }
    lists
}

fn short_words() {
    for list in lists(5, 5) {
        let letters: Vec<u8> = list.iter().map(|&kind| b"ACGTN"[kind as usize]).collect();
        codes::packed(&letters);
    }
    for word in 0..4096 {
        for len in 0..=7 {
            codes::revcomp(word, len);
        }
        for len in 0..=13 {
            codes::rev(word, len);
        }
        codes::unpacked_u64(word, 6, 7);
    }
}

fn random_words(dice: &mut Dice) {
    let word = |dice: &mut Dice| u64::from_le_bytes(dice.bytes(8).try_into().expect("eight"));
    for _ in 0..1500 {
        let (low, high) = (word(dice), word(dice));
        for len in 0..=33 {
            codes::revcomp(low, len);
            codes::unpacked_u64(low, len, len + dice.below(2));
        }
        for len in 0..=65 {
            codes::rev(low, len);
            codes::revcomp_wide(low, high, len);
        }
        for len in (0..=129).step_by(3) {
            codes::rev_wide(low, high, len);
        }
        let k = dice.below(66);
        codes::unpacked_u128(low, high, k, k);
        let letters = dice.below(67);
        codes::packed(&dice.bytes(letters));
    }
}

/// Every call on one view.
fn every<const B: usize>(bytes: &[u8], offset: usize, len: usize, dice: &mut Dice)
where
    Bits<B>: SupportedBits,
{
    let asked = Asked::<B>(bytes, offset, len);
    asked.words();
    let needed = up(B, len.min(4096)) + BEHIND;
    asked.reversed(needed);
    asked.reversed(needed - 1 + dice.below(3));
    if B == 2 {
        let room = len.min(4096);
        asked.unpack(room);
        asked.unpack(room.saturating_sub(1) + dice.below(3));
    }
}

fn short_views<const B: usize>()
where
    Bits<B>: SupportedBits,
{
    let mut dice = Dice(70);
    for size in BEHIND - 1..=BEHIND + 3 {
        let bytes = dice.bytes(size);
        first(&bytes);
        let most = (size.max(BEHIND) - BEHIND) * per(B);
        for offset in 0..=most + 1 {
            for len in 0..=most + 1 {
                every::<B>(&bytes, offset, len, &mut dice);
                let asked = Asked::<B>(&bytes, offset, len);
                for i in 0..=len {
                    asked.get(i);
                }
                for start in 0..=len.min(4) {
                    for end in [start.saturating_sub(1), start, start + 1, len, len + 1] {
                        asked.get_of_slice(start, end, dice.below(3));
                    }
                }
            }
        }
    }
}

fn random_views<const B: usize>(dice: &mut Dice, rounds: usize)
where
    Bits<B>: SupportedBits,
{
    for _ in 0..rounds {
        let size = BEHIND + dice.below(60);
        let most = (size - BEHIND) * per(B);
        let offset = dice.below(most + 2);
        let rest = most.saturating_sub(offset);
        let len = match dice.below(4) {
            0 => rest,
            1 => rest + 1,
            2 => dice.below(rest.min(130 / B) + 1),
            _ => dice.below(rest + 1),
        };
        let bytes = dice.bytes(size);
        first(&bytes);
        every::<B>(&bytes, offset, len, dice);
        let asked = Asked::<B>(&bytes, offset, len);
        for _ in 0..4 {
            asked.get(dice.below(len + 2));
            let (start, end) = (dice.below(len + 1), dice.below(len + 2));
            asked.get_of_slice(
                start.min(end),
                end,
                dice.below(end.saturating_sub(start) + 2),
            );
        }
    }
}

/// Every call on two views.
fn both<const B: usize>(pair: Pair<B>)
where
    Bits<B>: SupportedBits,
{
    pair.compare();
    pair.find();
    pair.least();
}

fn short_pairs<const B: usize>(most: usize)
where
    Bits<B>: SupportedBits,
{
    let lists = lists(1 << B, most);
    for (i, a) in lists.iter().enumerate() {
        let ao = i % (per(B) + 2);
        let a_bytes = dressed(B, a, ao, 255);
        first(&a_bytes);
        for (j, b) in lists.iter().enumerate() {
            let bo = j % (per(B) + 1);
            let b_bytes = dressed(B, b, bo, 0);
            second(&b_bytes);
            both(Pair::<B> {
                first: (&a_bytes, ao, a.len()),
                second: (&b_bytes, bo, b.len()),
            });
        }
    }
}

/// Views that share a long start more often than not.
fn random_pairs<const B: usize>(dice: &mut Dice, rounds: usize)
where
    Bits<B>: SupportedBits,
{
    for _ in 0..rounds {
        let most = [10, 70, 200][dice.below(3)];
        let (al, mut bl) = (dice.below(most), dice.below(most));
        let a = dice.chars(B, al);
        let mut b = a.clone();
        if dice.below(3) == 0 {
            bl = al;
        }
        b.resize_with(bl, || dice.below(1 << B) as u8);
        if bl > 0 && dice.below(2) == 0 {
            let place = dice.below(bl);
            b[place] ^= 1;
        }
        let (ao, bo) = (dice.below(2 * per(B) + 1), dice.below(2 * per(B) + 1));
        let (a_bytes, b_bytes) = (dressed(B, &a, ao, 255), dressed(B, &b, bo, 0));
        first(&a_bytes);
        second(&b_bytes);
        // Now and then a view that is refused, or a pattern cut short.
        let bad = if dice.below(20) == 0 { 9 } else { 0 };
        let pattern = if dice.below(3) == 0 {
            dice.below(al + 1)
        } else {
            al
        };
        both(Pair::<B> {
            first: (&a_bytes, ao, pattern),
            second: (&b_bytes, bo, bl + bad),
        });
    }
}

fn short_stores<const B: usize>()
where
    Bits<B>: SupportedBits,
{
    let mut dice = Dice(79);
    let c8 = per(B);
    for len in 0..=2 * c8 + 1 {
        let store = |byte: u8| Store::<B>::new(BEHIND + 2 + len % 3, byte, len);
        for n in 0..=2 * c8 {
            store(238).push_ascii(&dice.letters(n));
        }
        for offset in 0..2 * c8 {
            for n in 0..=c8 + 1 {
                store(255).push_seq(&dice.bytes(BEHIND + 4), offset, n);
            }
        }
        for start in 0..=len + 1 {
            for n in 0..=4 {
                store(90).overwrite(start, &dice.letters(n));
            }
        }
        for m in 0..=len + 1 {
            store(255).cut(m);
        }
        store(17).clear();
    }
}

/// Letters with U and u at every place of a byte.
fn short_rna<const B: usize>()
where
    Bits<B>: SupportedBits,
{
    let c8 = per(B);
    for list in lists(5, 4) {
        let letters: Vec<u8> = list.iter().map(|&kind| b"ATUuN"[kind as usize]).collect();
        for place in 0..c8 {
            let store = |len| Store::<B>::new(BEHIND + 3, 90, len);
            store(place).push_ascii(&letters);
            store(2 * c8).overwrite(place, &letters);
        }
    }
}

/// A stream with no delay, with one, with two.
fn lanes<const B: usize>(stream: Stream<B>, first: usize, second: usize)
where
    Bits<B>: SupportedBits,
{
    stream.plain();
    stream.one(first);
    stream.two(first, second);
}

fn short_streams<const B: usize>()
where
    Bits<B>: SupportedBits,
{
    let mut dice = Dice(80);
    for len in 0..=20 {
        for context in 0..=5 {
            for factor in 0..=3 {
                let offset = dice.below(2 * per(B));
                let bytes = dressed(B, &dice.chars(B, len), offset, 255);
                first(&bytes);
                let stream = Stream::<B>::new(&bytes, offset, len, context, factor);
                for delay in 0..=4 {
                    lanes(stream, delay, delay + dice.below(3));
                }
                stream.two(3, 2);
            }
        }
    }
}

fn random_streams<const B: usize>(dice: &mut Dice, rounds: usize)
where
    Bits<B>: SupportedBits,
{
    for _ in 0..rounds {
        let len = dice.below_one_of([30, 200, 600]);
        let context = 1 + dice.below_one_of([3, 40, len + 3]);
        let offset = dice.below(3 * per(B));
        let bytes = dressed(B, &dice.chars(B, len), offset, [0, 255][dice.below(2)]);
        first(&bytes);
        let stream = Stream::<B>::new(&bytes, offset, len, context, 1 + dice.below(2));
        let (_, steps, _) = stream.lanes();
        let delay = dice.below_one_of([4, steps + 3]);
        let second = match dice.below(8) {
            0 => LIMIT,
            1 => LIMIT + 1,
            _ => delay + dice.below(steps + 2),
        };
        lanes(stream, delay, second);
    }
}

/// Few flags, so that windows differ.
fn flagged(dice: &mut Dice, len: usize, offset: usize) -> Vec<u8> {
    let rare = 2 + dice.below(20);
    let flags: Vec<u8> = (0..len).map(|_| (dice.below(rare) == 0) as u8).collect();
    dressed(1, &flags, offset, 255)
}

fn short_windows() {
    let mut dice = Dice(81);
    for len in 0..=30 {
        for context in 0..=4 {
            let offset = dice.below(17);
            let bytes = flagged(&mut dice, len, offset);
            first(&bytes);
            let stream = Stream::<1>::new(&bytes, offset, len, context, 1);
            for k in 0..=5 {
                for skip in 0..=3 {
                    stream.windows(k, skip);
                }
            }
        }
    }
}

fn random_windows(dice: &mut Dice, rounds: usize) {
    for _ in 0..rounds {
        let len = dice.below_one_of([40, 300, 900]);
        let k = 1 + dice.below_one_of([5, 98]);
        // a context that k needs and a skip that it needs, two times out of three each
        let [context_from, skip_from] = [k, k - 1].map(|least| least * dice.below(3).min(1));
        let context = context_from.max(1) + dice.below_one_of([3, 40, 100]);
        let offset = dice.below(24);
        let bytes = flagged(dice, len, offset);
        first(&bytes);
        let stream = Stream::<1>::new(&bytes, offset, len, context, 1);
        let (_, steps, _) = stream.lanes();
        let skip = skip_from + dice.below_one_of([2, steps.saturating_sub(skip_from) + 2]);
        stream.windows(k, skip);
    }
}
