//! Calls on two views, the first over the first buffer, the second over the second. Comparing is what the original's
//! `cmp_lcp`, `cmp` and `==` say, asserted against the characters. Find (added) is the least place where the original's `==` holds of a
//! slice; least (added) is the normalised part of the view that the original's `cmp` puts first.

use super::lines::{case, compared, with_bytes};
use super::original::view;
use super::plain::{chars, common, place};
use super::refusals::{Test, answer, bad_view, number};
use crate::Seq;
use crate::packed_seq::{Bits, PackedSeqBase, SupportedBits, inside};
use std::cmp::Ordering;

/// The bytes, offset and length of the first view and of the second.
#[derive(Clone, Copy)]
pub struct Pair<'a, const B: usize> {
    pub first: (&'a [u8], usize, usize),
    pub second: (&'a [u8], usize, usize),
}

impl<'a, const B: usize> Pair<'a, B>
where
    Bits<B>: SupportedBits,
{
    fn tests(&self) -> [Test; 2] {
        [self.first, self.second].map(|(bytes, o, len)| bad_view(B, bytes, o, len))
    }

    fn views(&self) -> [PackedSeqBase<'a, B>; 2] {
        [self.first, self.second].map(|(bytes, o, len)| view(bytes, o, len))
    }

    fn chars(&self) -> [Vec<u8>; 2] {
        [self.first, self.second].map(|(bytes, o, len)| chars(B, bytes, o, len))
    }

    fn numbers(&self, call: usize) -> [usize; 6] {
        let (_, ao, al) = self.first;
        let (_, bo, bl) = self.second;
        [call, B, ao, al, bo, bl]
    }

    /// What the original's `cmp_lcp`, `cmp` and `==` say, each asked for itself.
    fn compared(&self) -> ((Ordering, usize), Ordering, bool) {
        let ([a, b], [xs, ys]) = (self.views(), self.chars());
        let (order, count) = a.cmp_lcp(&b);
        assert_eq!(count, common(&xs, &ys));
        assert_eq!(order, xs.cmp(&ys));
        assert_eq!(order, a.iter_bp().cmp(b.iter_bp()));
        let (cmp, equal) = (a.cmp(&b), a == b);
        assert_eq!(cmp, xs.cmp(&ys));
        assert_eq!(equal, xs == ys);
        ((order, count), cmp, equal)
    }

    /// One question, and the original's three answers.
    pub fn compare(&self) {
        let answers = match number(&self.tests()) {
            0 => {
                let ((order, count), cmp, equal) = self.compared();
                [
                    vec![0, sign(order), count as u64],
                    vec![0, sign(cmp)],
                    vec![0, equal.into()],
                ]
            }
            refusal => [vec![refusal, 0, 0], vec![refusal, 0], vec![refusal, 0]],
        };
        compared(&self.numbers(40), answers.each_ref().map(Vec::as_slice));
    }

    /// The pattern is the first view.
    pub fn find(&self) {
        let answer = answer(&self.tests(), || {
            let ([pattern, text], [xs, ys]) = (self.views(), self.chars());
            let len = pattern.len();
            let mut places = 0..(text.len() + 1).saturating_sub(len);
            let found = places.find(|&p| text.slice(p..p + len) == pattern);
            assert_eq!(found, place(&xs, &ys));
            [found.is_some() as u64, found.unwrap_or(0) as u64]
        });
        case(&self.numbers(43), &answer);
    }

    pub fn least(&self) {
        let answer = match number(&self.tests()) {
            0 => {
                let [a, b] = self.views();
                let least = if self.compared().1.is_gt() { b } else { a };
                let (bytes, offset, len) = inside::parts(&least.normalize());
                with_bytes(&[0, offset as u64, len as u64], bytes)
            }
            refusal => vec![refusal, 0, 0],
        };
        case(&self.numbers(44), &answer);
    }
}

/// -1, 0 or 1, printed as 0, 1 or 2.
fn sign(order: Ordering) -> u64 {
    (order as i8 + 1) as u64
}
