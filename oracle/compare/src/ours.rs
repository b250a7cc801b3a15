//! A case asked of the archive: its answer as the numbers that the original's answer has.

use oracle::cases::lines::Line;
use std::cmp::Ordering;
use std::fmt::{Display, Formatter};
use tsivelaro::{
    Chars, Filled, Pushed, Refusal, Windows, bases, flags, lanes_room, letters, words,
};

/// The three buffers: two that are read, and one that calls write to.
#[derive(Clone, Default)]
pub struct Ours {
    first: Vec<u8>,
    second: Vec<u8>,
    out: Vec<u8>,
}

/// What lies behind the entries that a stream writes, and must stay.
const STRAY: u32 = 0x5A5A_5A5A;

/// The numbers of an answer, or the refusal and as many zeros.
fn told<const N: usize>(answer: Result<[u64; N], Refusal>) -> Vec<u64> {
    match answer {
        Ok(numbers) => [0].into_iter().chain(numbers).collect(),
        Err(refusal) => [refusal.number().into()]
            .into_iter()
            .chain([0; N])
            .collect(),
    }
}

fn halves(word: u128) -> [u64; 2] {
    [word as u64, (word >> 64) as u64]
}

fn sign(order: Ordering) -> u64 {
    (order as i8 + 1) as u64
}

fn with_bytes(numbers: Vec<u64>, bytes: &[u8]) -> Vec<u64> {
    let bytes = bytes.iter().map(|&byte| byte.into());
    numbers.into_iter().chain(bytes).collect()
}

/// A word given as its high and its low 32 bits.
fn word(numbers: &[usize]) -> u64 {
    (numbers[0] as u64) << 32 | numbers[1] as u64
}

fn wide(numbers: &[usize]) -> u128 {
    u128::from(word(&numbers[2..])) << 64 | u128::from(word(numbers))
}

/// A stream's answer: the steps, the padding, and the entries of each buffer, which has room for them and one more.
fn entries(
    buffers: usize,
    room: usize,
    fill: impl FnOnce(&mut [Vec<u32>]) -> Result<Filled, Refusal>,
) -> Vec<u64> {
    let mut entries = vec![vec![STRAY; room + 1]; buffers];
    let filled = fill(&mut entries);
    let mut numbers = told(filled.map(|f| [f.steps as u64, f.padding.0 as u64]));
    let written = filled.map_or(0, |f| 8 * f.steps);
    for buffer in &entries {
        numbers.extend(buffer[..written].iter().map(|&entry| u64::from(entry)));
        if buffer[written..].iter().any(|&entry| entry != STRAY) {
            numbers.push(u64::MAX);
        }
    }
    numbers
}

macro_rules! width {
    ($name:ident, $width:ident) => {
        mod $name {
            use super::*;

            pub fn view<'a>(bytes: &'a [u8], numbers: &[usize]) -> $width::View<'a> {
                $width::View::unasked(bytes, Chars(numbers[0]), Chars(numbers[1]))
            }

            /// Calls 31 to 38, the view's numbers behind the call and the width.
            pub fn one(ours: &mut Ours, numbers: &[usize]) -> Vec<u64> {
                let at = |i: usize| Chars(numbers[i]);
                let view = view(&ours.first, &numbers[2..]);
                match numbers[0] {
                    31 => told(view.get(at(4)).map(|c| [c.into()])),
                    32 => {
                        let got = view.get_sliced(at(4), at(5), at(6));
                        // The same by parts, as far as they are accepted.
                        let parts = $width::View::new(&ours.first, at(2), at(3))
                            .and_then(|view| view.slice(at(4), at(5)))
                            .and_then(|part| part.normalise())
                            .and_then(|part| part.get(at(6)));
                        assert_eq!(got, parts, "{numbers:?}");
                        told(got.map(|c| [c.into()]))
                    }
                    34 => told(view.as_u64().map(|word| [word])),
                    35 => told(view.as_u128().map(halves)),
                    36 => told(view.revcomp_as_u64().map(|word| [word])),
                    37 => told(view.revcomp_as_u128().map(halves)),
                    _ => {
                        let number = told(view.to_revcomp(&mut ours.out).map(|_| []));
                        with_bytes(number, &ours.out)
                    }
                }
            }

            /// Calls 40 to 44.
            pub fn two(ours: &Ours, numbers: &[usize]) -> Vec<u64> {
                let a = view(&ours.first, &numbers[2..]);
                let b = view(&ours.second, &numbers[4..]);
                match numbers[0] {
                    40 => told(a.compare(b).map(|(order, n)| [sign(order), n.0 as u64])),
                    43 => told(b.find(a).map(|found| {
                        let place = found.unwrap_or_default().0 as u64;
                        [found.is_some().into(), place]
                    })),
                    _ => {
                        let least = a.least(b);
                        let numbers = least.map(|v| [v.offset().0 as u64, v.len().0 as u64]);
                        with_bytes(told(numbers), least.map_or(&[], |view| view.bytes()))
                    }
                }
            }

            fn pushed(pushed: Result<Pushed, Refusal>, store: &$width::Store) -> Vec<u64> {
                let numbers = pushed.map(|p| {
                    assert_eq!(p.len, store.len());
                    [p.start.0 as u64, p.end.0 as u64]
                });
                kept(told(numbers), store)
            }

            fn kept(mut numbers: Vec<u64>, store: &$width::Store) -> Vec<u64> {
                numbers.push(store.len().0 as u64);
                with_bytes(numbers, store.bytes())
            }

            /// Calls 50 to 54: the store is the third buffer.
            pub fn store(ours: &mut Ours, numbers: &[usize]) -> Vec<u64> {
                let at = |i: usize| Chars(numbers[i]);
                if numbers[0] == 50 {
                    let number =
                        $width::Store::clear(&mut ours.out).map(|store| [store.len().0 as u64]);
                    return with_bytes(told(number), &ours.out);
                }
                let mut store = $width::Store::again(&mut ours.out, at(2));
                match numbers[0] {
                    51 => pushed(store.push_ascii(&ours.first), &store),
                    52 => pushed(store.push_seq(view(&ours.first, &numbers[3..])), &store),
                    53 => kept(
                        told(store.overwrite(at(3), &ours.first).map(|()| [])),
                        &store,
                    ),
                    _ => kept(told(store.cut(at(3)).map(|()| [])), &store),
                }
            }

            /// Calls 60 to 62, all steps at once.
            pub fn filled(ours: &Ours, numbers: &[usize]) -> Vec<u64> {
                let at = |i: usize| Chars(numbers[i]);
                let view = view(&ours.first, &numbers[2..]);
                let (context, factor) = (at(4), numbers[5]);
                let room = match $width::shape(at(3), context, factor) {
                    Ok(shape) if at(3).0 < 1 << 20 => lanes_room(shape.steps),
                    _ => 0,
                };
                match numbers[0] {
                    60 => entries(1, room, |b| view.fill(context, factor, &mut b[0])),
                    61 => entries(2, room, |b| {
                        let [out, late] = b else { unreachable!() };
                        view.fill_delayed(context, factor, at(6), out, late)
                    }),
                    _ => entries(3, room, |b| {
                        let [out, first, second] = b else {
                            unreachable!()
                        };
                        view.fill_delayed_2(context, factor, [at(6), at(7)], out, first, second)
                    }),
                }
            }

            /// The same, a step at a time, up to the step that is refused.
            pub fn stepped(ours: &Ours, numbers: &[usize]) -> Vec<u64> {
                let at = |i: usize| Chars(numbers[i]);
                let view = view(&ours.first, &numbers[2..]);
                let (context, factor) = (at(4), numbers[5]);
                let mut entries = vec![Vec::new(); numbers[0] - 59];
                for j in 0.. {
                    let lanes = match numbers[0] {
                        60 => view.step(context, factor, j).map(|l| vec![l]),
                        61 => view.step_delayed(context, factor, at(6), j).map(Vec::from),
                        _ => view
                            .step_delayed_2(context, factor, [at(6), at(7)], j)
                            .map(Vec::from),
                    };
                    match lanes {
                        Ok(lanes) => {
                            for (entries, lanes) in entries.iter_mut().zip(lanes) {
                                entries.extend(lanes.map(u64::from));
                            }
                        }
                        Err(refusal) => {
                            assert_eq!(refusal, Refusal::BadStream);
                            break;
                        }
                    }
                }
                entries.concat()
            }
        }
    };
}

width!(two_bits, bases);
width!(one_bit, flags);

impl Ours {
    pub fn fill(&mut self, line: Line) {
        match line {
            Line::First(bytes) => self.first = bytes.to_vec(),
            Line::Second(bytes) => self.second = bytes.to_vec(),
            Line::Out(size, byte) => self.out = vec![byte; size],
            Line::Case(..) | Line::Compared(..) | Line::Stepped(..) => {}
        }
    }

    /// The bytes of all buffers.
    pub fn size(&self) -> usize {
        self.first.len() + self.second.len() + self.out.len()
    }

    /// The letters that a call takes: those of the first buffer.
    pub fn letters(&self) -> &[u8] {
        &self.first
    }

    pub fn answer(&mut self, numbers: &[usize]) -> Vec<u64> {
        let wide_one = numbers.get(1) == Some(&2);
        match numbers[0] {
            10 => {
                let byte = numbers[1] as u8;
                let (lossy, flag) = (
                    letters::pack_char_lossy(byte),
                    letters::char_is_ambiguous(byte),
                );
                let strict = told(letters::pack_char(byte).map(|c| [c.into()]));
                let pair = told(letters::complement_char(byte).map(|c| [c.into()]));
                [strict, vec![lossy.into(), flag.into()], pair].concat()
            }
            11 => {
                let code = numbers[1] as u8;
                let letter = told(letters::unpack_base(code).map(|c| [c.into()]));
                let pair = told(letters::complement_base(code).map(|c| [c.into()]));
                [letter, pair].concat()
            }
            20 => told(words::pack_kmer_lossy(&self.first).map(|word| [word])),
            21 => told(words::pack_kmer_u128_lossy(&self.first).map(halves)),
            22 => {
                let number =
                    words::unpack_kmer(word(&numbers[2..]), Chars(numbers[1]), &mut self.out);
                with_bytes(told(number.map(|()| [])), &self.out)
            }
            23 => {
                let number =
                    words::unpack_kmer_u128(wide(&numbers[2..]), Chars(numbers[1]), &mut self.out);
                with_bytes(told(number.map(|()| [])), &self.out)
            }
            24 => told(words::revcomp_u64(word(&numbers[2..]), Chars(numbers[1])).map(|w| [w])),
            25 => told(words::revcomp_u128(wide(&numbers[2..]), Chars(numbers[1])).map(halves)),
            26 => told(words::rev_u64(word(&numbers[2..]), Chars(numbers[1])).map(|w| [w])),
            27 => told(words::rev_u128(wide(&numbers[2..]), Chars(numbers[1])).map(halves)),
            39 => {
                let number = two_bits::view(&self.first, &numbers[1..]).unpack(&mut self.out);
                with_bytes(told(number.map(|()| [])), &self.out)
            }
            31..=38 if wide_one => two_bits::one(self, numbers),
            31..=38 => one_bit::one(self, numbers),
            40..=44 if wide_one => two_bits::two(self, numbers),
            40..=44 => one_bit::two(self, numbers),
            50..=54 if wide_one => two_bits::store(self, numbers),
            50..=54 => one_bit::store(self, numbers),
            60..=62 if wide_one => two_bits::filled(self, numbers),
            60..=62 => one_bit::filled(self, numbers),
            _ => self.windows(numbers),
        }
    }

    fn windows(&self, numbers: &[usize]) -> Vec<u64> {
        let at = |i: usize| Chars(numbers[i]);
        let view = one_bit::view(&self.first, &numbers[1..]);
        let room = match flags::shape(at(2), at(3), 1) {
            Ok(shape) if at(2).0 < 1 << 20 => lanes_room(shape.steps.saturating_sub(numbers[5])),
            _ => 0,
        };
        entries(1, room, |b| {
            view.fill_windows(at(3), at(4), numbers[5], &mut b[0])
        })
    }

    /// A stream's entries, a step at a time.
    pub fn stepped(&self, numbers: &[usize]) -> Vec<u64> {
        match numbers[..2] {
            [63, _] => self.stepped_windows(numbers),
            [_, 2] => two_bits::stepped(self, numbers),
            _ => one_bit::stepped(self, numbers),
        }
    }

    fn stepped_windows(&self, numbers: &[usize]) -> Vec<u64> {
        let at = |i: usize| Chars(numbers[i]);
        let view = one_bit::view(&self.first, &numbers[1..]);
        let (mut state, mut entries) = (Windows::default(), Vec::new());
        while let Ok((answers, next)) = view.step_windows(at(3), at(4), state) {
            if state.step >= numbers[5] {
                entries.extend(answers.map(u64::from));
            }
            state = next;
        }
        entries
    }
}

impl Display for Ours {
    fn fmt(&self, f: &mut Formatter) -> std::fmt::Result {
        let Ours { first, second, out } = self;
        write!(
            f,
            "  first {first:02x?}\n  second {second:02x?}\n  out {out:02x?}"
        )
    }
}
