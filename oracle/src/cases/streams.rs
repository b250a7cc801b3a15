//! Lane streams of a view, which lies over the first buffer.
//!
//! The original is asked for the view's characters packed afresh at offset 0, so that nothing stands behind the end and
//! no context is reached by an in-byte offset. A delay beyond the steps is asked as one of just the steps: all 0 by 01,
//! while the original would keep that many characters. The plain stream, which has no factor there, is asked as the plain
//! part of a delayed one; where the factor is 1, `par_iter_bp` is asserted to give the same.
//!
//! The direct answers are asserted to be the printed ones at every place within the view, but where only the in-byte
//! offset reaches the context.

use super::lines::{case, stepped};
use super::original::{afresh, characters, view};
use super::plain;
use super::refusals::{Test, bad_stream, bad_view, number, partial};
use crate::packed_seq::{Bits, PackedSeqBase, SupportedBits};
use crate::{ChunkIt, Delay, PaddedIt, Seq, SeqVec, u32x8};

/// The largest context, and the largest delay.
pub const LIMIT: usize = 1 << 31;

#[derive(Clone, Copy)]
pub struct Stream<'a, const B: usize> {
    bytes: &'a [u8],
    offset: usize,
    pub len: usize,
    pub context: usize,
    factor: usize,
}

impl<'a, const B: usize> Stream<'a, B>
where
    Bits<B>: SupportedBits,
{
    /// Of the view of these bytes, which stand in the first buffer.
    pub fn new(bytes: &'a [u8], offset: usize, len: usize, context: usize, factor: usize) -> Self {
        Self {
            bytes,
            offset,
            len,
            context,
            factor,
        }
    }

    fn tests(&self, bad: bool) -> [Test; 2] {
        let numbers = !(1..=LIMIT).contains(&self.context) || !(1..=2).contains(&self.factor);
        [
            bad_view(B, self.bytes, self.offset, self.len),
            bad_stream(numbers || bad),
        ]
    }

    fn view(&self) -> PackedSeqBase<'_, B> {
        view(self.bytes, self.offset, self.len)
    }

    /// Whether only the in-byte offset reaches the context; the original then gives steps, and 01 gives none.
    fn reached_by_offset(&self) -> bool {
        let end = self.len + self.offset % plain::per(B);
        self.len > 0 && (self.len + 1..=end).contains(&self.context)
    }

    /// Asserts that the direct entries are the answer's at every place within the view.
    fn agree(&self, direct: &[u64], entries: &[u64], skip: usize) {
        let (n, _, _) = self.lanes();
        assert_eq!(direct.len(), entries.len());
        for (i, (direct, entry)) in direct.iter().zip(entries).enumerate() {
            let (step, lane) = (i / 8 + skip, i % 8);
            assert!(direct == entry || lane * n + step >= self.len);
        }
    }

    /// n, the steps and the padding.
    pub fn lanes(&self) -> (usize, usize, usize) {
        plain::lanes(B, self.len, self.context, self.factor)
    }

    /// The answer: the steps, the padding, and the entries of each delay, the plain ones first.
    fn filled(&self, delays: &[usize]) -> Vec<u64> {
        let chars = characters(self.view());
        let (n, steps, padding) = self.lanes();
        let store = afresh(&chars);
        let entries = ask(store.as_slice(), self, delays);
        for (entries, &delay) in entries.iter().zip(delays) {
            assert_eq!(entries, &plain::entries(&chars, n, steps, delay));
        }
        if !self.reached_by_offset() {
            for (direct, entries) in ask(self.view(), self, delays).iter().zip(&entries) {
                self.agree(direct, entries, 0);
            }
        }
        let numbers = [0, steps as u64, padding as u64];
        numbers.into_iter().chain(entries.concat()).collect()
    }

    fn print(&self, call: usize, delays: &[usize]) {
        let falling = delays.windows(2).any(|pair| pair[0] > pair[1]);
        let far = delays.iter().any(|&delay| delay > LIMIT);
        let numbers = [call, B, self.offset, self.len, self.context, self.factor];
        let answer = match number(&self.tests(falling || far)) {
            0 => self.filled(&[&[0], delays].concat()),
            refusal => vec![refusal, 0, 0],
        };
        case(&[&numbers, delays].concat(), &answer);
    }

    pub fn plain(&self) {
        self.print(60, &[]);
    }

    pub fn one(&self, delay: usize) {
        self.print(61, &[delay]);
    }

    pub fn two(&self, first: usize, second: usize) {
        self.print(62, &[first, second]);
    }
}

impl Stream<'_, 1> {
    /// Flag windows; the factor is 1. Where they are partial, filling is refused, and stepping gives the original's entries.
    pub fn windows(&self, k: usize, skip: usize) {
        let (n, steps, padding) = self.lanes();
        let numbers = [63, self.offset, self.len, self.context, k, skip];
        let refused = |number| case(&numbers, &[number, 0, 0]);
        let tests = self.tests(!(1..=96).contains(&k) || skip > steps);
        if number(&tests) != 0 {
            return refused(number(&tests));
        }
        let flags = characters(self.view());
        let store = afresh(&flags);
        let ask = |view: PackedSeqBase<1>| {
            let stream = view.par_iter_kmer_ambiguity(k, self.context, skip);
            assert_eq!(stream.padding, padding);
            lane_entries(stream.it)
        };
        let entries = ask(store.as_slice());
        assert_eq!(entries, plain::windows(&flags, n, steps, k, skip));
        if !self.reached_by_offset() {
            self.agree(&ask(self.view()), &entries, skip);
        }
        match number(&[partial(steps, self.context, k, skip)]) {
            0 => {
                let answer = [0, (steps - skip) as u64, padding as u64];
                case(&numbers, &[&answer[..], &entries].concat());
            }
            partial => {
                refused(partial);
                stepped(&numbers, &entries);
            }
        }
    }
}

/// The original's entries for each delay, the first of them 0.
fn ask<const B: usize>(
    view: PackedSeqBase<B>,
    stream: &Stream<B>,
    delays: &[usize],
) -> Vec<Vec<u64>>
where
    Bits<B>: SupportedBits,
{
    let (_, steps, padding) = stream.lanes();
    let (context, factor) = (stream.context, stream.factor);
    let delay = |i: usize| Delay(delays[i].min(steps));
    let entries = match delays.len() {
        1 => {
            let filled = view.par_iter_bp_delayed_with_factor(context, Delay(0), factor);
            assert_eq!(filled.padding, padding);
            let entries = lane_entries(filled.it.map(|(plain, _)| plain));
            if factor == 1 {
                let PaddedIt { it, padding: same } = view.par_iter_bp(context);
                assert_eq!((lane_entries(it), same), (entries.clone(), padding));
            }
            vec![entries]
        }
        2 => {
            let ask = || view.par_iter_bp_delayed_with_factor(context, delay(1), factor);
            assert_eq!(ask().padding, padding);
            let plain = lane_entries(ask().it.map(|(plain, _)| plain));
            vec![plain, lane_entries(ask().it.map(|(_, late)| late))]
        }
        _ => {
            let ask =
                || view.par_iter_bp_delayed_2_with_factor(context, delay(1), delay(2), factor);
            assert_eq!(ask().padding, padding);
            let plain = lane_entries(ask().it.map(|(plain, _, _)| plain));
            let first = lane_entries(ask().it.map(|(_, first, _)| first));
            vec![
                plain,
                first,
                lane_entries(ask().it.map(|(_, _, second)| second)),
            ]
        }
    };
    assert!(entries.iter().all(|entries| entries.len() == 8 * steps));
    entries
}

fn lane_entries(lanes: impl ChunkIt<u32x8>) -> Vec<u64> {
    lanes
        .flat_map(|lanes| lanes.as_array().map(u64::from))
        .collect()
}
