//! Lane streams and flag windows, filled into buffers. The original is asked twice: in the form that takes its buffer from the caller, as
//! ours does, and in the form that keeps one for each thread. Each stream is walked in a function of its own, zipped with its output.

use crate::job::job;
use crate::{LETTERS, packed_by};
use oracle::packed_seq::{BitSeq, BitSeqVec, PackedSeq, PackedSeqVec, inside};
use oracle::{ChunkIt, Delay, PaddedIt, Seq, SeqVec, u32x8};
use tsivelaro::{Chars, Filled, Refusal, Shape, bases, flags};

const CONTEXT: Chars = Chars(31);
const LEN: Chars = Chars(LETTERS);
const FIRST: usize = 10;
const SECOND: usize = 20;
/// The least that windows of so many flags take.
const SKIP: usize = CONTEXT.0 - 1;

type Buffers = [Vec<u32>; 3];

/// What ours fills, what the original's is put into, and the buffers that the original is lent.
struct State {
    ours: Buffers,
    theirs: Buffers,
    words: [u32x8; 8],
    ring: Vec<u32x8>,
}

impl State {
    fn new(shape: Shape) -> Self {
        let buffers = || [(); 3].map(|()| vec![0; 8 * shape.steps]);
        State {
            ours: buffers(),
            theirs: buffers(),
            words: [u32x8::ZERO; 8],
            ring: Vec::new(),
        }
    }
}

fn same(shape: Shape) -> impl Fn(&State, Result<Filled, Refusal>, usize) -> bool {
    move |state, filled, padding| {
        let numbers = filled.map(|f| (f.steps, f.padding.0));
        state.ours == state.theirs && numbers == Ok((shape.steps, padding))
    }
}

/// Eight entries for each step.
fn steps(out: &mut [u32]) -> impl Iterator<Item = &mut [u32; 8]> {
    out.as_chunks_mut().0.iter_mut()
}

#[inline(always)]
fn put<I: ChunkIt<u32x8>>(stream: PaddedIt<I>, [x, _, _]: &mut Buffers) -> usize {
    let out = steps(x);
    stream.it.zip(out).for_each(|(a, x)| *x = *a.as_array());
    stream.padding
}

#[inline(always)]
fn put_2<I: ChunkIt<(u32x8, u32x8)>>(stream: PaddedIt<I>, [x, y, _]: &mut Buffers) -> usize {
    let out = steps(x).zip(steps(y));
    stream.it.zip(out).for_each(|((a, b), (x, y))| {
        *x = *a.as_array();
        *y = *b.as_array();
    });
    stream.padding
}

#[inline(always)]
fn put_3<I: ChunkIt<(u32x8, u32x8, u32x8)>>(stream: PaddedIt<I>, [x, y, z]: &mut Buffers) -> usize {
    let out = steps(x).zip(steps(y)).zip(steps(z));
    stream.it.zip(out).for_each(|((a, b, c), ((x, y), z))| {
        *x = *a.as_array();
        *y = *b.as_array();
        *z = *c.as_array();
    });
    stream.padding
}

#[inline(never)]
fn lent(all: PackedSeq, s: &mut State) -> usize {
    let stream = all.par_iter_bp_with_buf(CONTEXT.0, &mut s.words);
    put(stream, &mut s.theirs)
}

#[inline(never)]
fn kept(all: PackedSeq, s: &mut State) -> usize {
    put(all.par_iter_bp(CONTEXT.0), &mut s.theirs)
}

#[inline(never)]
fn lent_2(all: PackedSeq, s: &mut State) -> usize {
    let stream = all.par_iter_bp_delayed_with_buf(CONTEXT.0, Delay(FIRST), &mut s.ring);
    put_2(stream, &mut s.theirs)
}

#[inline(never)]
fn kept_2(all: PackedSeq, s: &mut State) -> usize {
    let stream = all.par_iter_bp_delayed(CONTEXT.0, Delay(FIRST));
    put_2(stream, &mut s.theirs)
}

#[inline(never)]
fn lent_3(all: PackedSeq, s: &mut State) -> usize {
    let (first, second) = (Delay(FIRST), Delay(SECOND));
    let stream = all.par_iter_bp_delayed_2_with_buf(CONTEXT.0, first, second, &mut s.ring);
    put_3(stream, &mut s.theirs)
}

#[inline(never)]
fn kept_3(all: PackedSeq, s: &mut State) -> usize {
    let stream = all.par_iter_bp_delayed_2(CONTEXT.0, Delay(FIRST), Delay(SECOND));
    put_3(stream, &mut s.theirs)
}

#[inline(never)]
fn lent_windows(all: BitSeq, s: &mut State) -> usize {
    let stream = all.par_iter_kmer_ambiguity_with_buf(CONTEXT.0, CONTEXT.0, SKIP, &mut s.ring);
    put(stream, &mut s.theirs)
}

#[inline(never)]
fn kept_windows(all: BitSeq, s: &mut State) -> usize {
    let stream = all.par_iter_kmer_ambiguity(CONTEXT.0, CONTEXT.0, SKIP);
    put(stream, &mut s.theirs)
}

pub fn jobs(text: &[u8]) -> Result<(), Refusal> {
    let theirs = packed_by::<PackedSeqVec>(text);
    let all = theirs.as_slice();
    let view = bases::View::new(inside::bytes(&theirs), Chars(0), LEN)?;
    let shape = bases::shape(LEN, CONTEXT, 1)?;
    let row = |name: &str,
               ours: &dyn Fn(&mut Buffers) -> Result<Filled, Refusal>,
               original: fn(PackedSeq, &mut State) -> usize| {
        job(
            name,
            State::new(shape),
            |s| ours(&mut s.ours),
            |s| original(all, s),
            same(shape),
        );
    };
    let plain = |[x, _, _]: &mut Buffers| view.fill(CONTEXT, 1, x);
    row("fill", &plain, lent);
    row("fill, original's own buffer", &plain, kept);
    let one = |[x, y, _]: &mut Buffers| view.fill_delayed(CONTEXT, 1, Chars(FIRST), x, y);
    row("fill, one delay", &one, lent_2);
    row("fill, one delay, own buffer", &one, kept_2);
    let delays = [Chars(FIRST), Chars(SECOND)];
    let two = |[x, y, z]: &mut Buffers| view.fill_delayed_2(CONTEXT, 1, delays, x, y, z);
    row("fill, two delays", &two, lent_3);
    row("fill, two delays, own buffer", &two, kept_3);
    windows(text)
}

fn windows(text: &[u8]) -> Result<(), Refusal> {
    let theirs = packed_by::<BitSeqVec>(text);
    let all = theirs.as_slice();
    let view = flags::View::new(inside::bytes(&theirs), Chars(0), LEN)?;
    let all_steps = flags::shape(LEN, CONTEXT, 1)?;
    let shape = Shape {
        steps: all_steps.steps - SKIP,
        ..all_steps
    };
    let row = |name: &str, original: fn(BitSeq, &mut State) -> usize| {
        job(
            name,
            State::new(shape),
            |s| view.fill_windows(CONTEXT, CONTEXT, SKIP, &mut s.ours[0]),
            |s| original(all, s),
            same(shape),
        );
    };
    row("windows of 31 flags", lent_windows);
    row("windows of 31 flags, own buffer", kept_windows);
    Ok(())
}
