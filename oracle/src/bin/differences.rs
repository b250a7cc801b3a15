//! Shows the differences between the original and the rules, each on a small input.
//!
//! One line each, tabs between the columns: name, input, what the original does in this build, what the rules say. The input
//! is the expression that is run, in the words of the functions below. Debug and release builds differ where sums and
//! shifts overflow and where only a debug assertion guards: run both. The line about a dirty tail differs also in a
//! build with AVX2.

use oracle::packed_seq::{
    BitSeq, BitSeqVec, Bits, PackedSeq, PackedSeqBase, PackedSeqVecBase, SupportedBits,
    char_is_ambiguous, complement_base, inside, pack_char, pack_kmer_lossy, pack_kmer_u128_lossy,
    rev_u64, rev_u128, revcomp_u64, revcomp_u128, unpack_kmer_to_vec, unpack_kmer_u128_to_vec,
};
use oracle::{ChunkIt, Delay, PaddedIt, Seq, SeqVec, u32x8};
use std::fmt::Debug;
use std::ops::Range;
use std::panic::{UnwindSafe, catch_unwind, set_hook};

fn main() {
    set_hook(Box::new(|_| {}));
    let build = if cfg!(debug_assertions) {
        "debug"
    } else {
        "release"
    };
    println!("difference\tinput\toriginal, {build} build\tthe rules");
    codes();
    bounds();
    words();
    reverse();
    stores();
    streams();
}

macro_rules! difference {
    ($name:expr, $input:expr, $document:expr) => {
        show($name, stringify!($input), || $input, $document)
    };
}

fn show<T: Debug>(
    name: &str,
    input: &str,
    original: impl FnOnce() -> T + UnwindSafe,
    document: &str,
) {
    let does = match catch_unwind(original) {
        Ok(answer) => format!("{answer:?}"),
        Err(panic) => match panic.downcast_ref::<String>() {
            Some(message) => format!("panics: {message}"),
            None => format!("panics: {}", panic.downcast_ref::<&str>().unwrap()),
        },
    };
    println!("{name}\t{input}\t{does}\t{document}");
}

/// A view of width 2 over these bytes and 48 zeros.
fn bases(bytes: &[u8], offset: usize, len: usize) -> PackedSeq<'static> {
    PackedSeq::from_raw_parts(with_zeros(bytes), offset, len)
}

/// A view of width 1 over these bytes and 48 zeros.
fn flags(bytes: &[u8], offset: usize, len: usize) -> BitSeq<'static> {
    BitSeq::from_raw_parts(with_zeros(bytes), offset, len)
}

fn with_zeros(bytes: &[u8]) -> &'static [u8] {
    [bytes, &[0; 48]].concat().leak()
}

/// The range that push_seq of a view onto an empty store answers.
fn range<const B: usize>(view: PackedSeqBase<B>) -> Range<usize>
where
    Bits<B>: SupportedBits,
{
    PackedSeqVecBase::default().push_seq(view)
}

/// All bytes of an empty store after push_seq of a view and push_ascii of a text.
fn bytes<const B: usize>(view: PackedSeqBase<B>, text: &str) -> Vec<u8>
where
    Bits<B>: SupportedBits,
{
    let mut store = PackedSeqVecBase::default();
    store.push_seq(view);
    store.push_ascii(text.as_bytes());
    inside::bytes(&store).to_vec()
}

fn cleared() -> PackedSeqVecBase<2> {
    let mut store = PackedSeqVecBase::default();
    store.clear();
    store
}

/// Lane 0 at a step, counted from 0.
fn lane_0(stream: PaddedIt<impl ChunkIt<u32x8>>, step: usize) -> u32 {
    let mut it = stream.it;
    it.nth(step).expect("a step").as_array()[0]
}

/// The delayed characters.
fn delayed(
    view: PackedSeq,
    context: usize,
    delay: usize,
    factor: usize,
) -> PaddedIt<impl ChunkIt<u32x8>> {
    view.par_iter_bp_delayed_with_factor(context, Delay(delay), factor)
        .map(|(_, delayed)| delayed)
}

/// Flag windows from step `skip` on.
fn windows(view: BitSeq, k: usize, context: usize, skip: usize) -> PaddedIt<impl ChunkIt<u32x8>> {
    view.par_iter_kmer_ambiguity(k, context, skip)
}

/// The flags of a text.
fn flags_of(text: &str) -> BitSeqVec {
    let mut store = PackedSeqVecBase::default();
    store.push_ascii(text.as_bytes());
    store
}

fn codes() {
    let name = "U is ambiguous";
    difference!(name, pack_char(b'U'), "2");
    difference!(name, pack_char(b'u'), "2");
    difference!(name, char_is_ambiguous(b'U'), "0");
    difference!(name, char_is_ambiguous(b'u'), "0");
    difference!(name, inside::bytes(&flags_of("AUuN"))[0], "8");
    difference!(
        name,
        lane_0(windows(flags_of("AU").as_slice(), 2, 2, 1), 0),
        "0"
    );

    let name = "a code above 3 is complemented";
    difference!(name, complement_base(4), "refused 6");

    let name = "length 0 gives the whole word reversed";
    difference!(name, revcomp_u64(4, 0), "refused 5");
    difference!(name, revcomp_u128(4, 0), "refused 5");
    difference!(name, rev_u64(1, 0), "refused 5");
    difference!(name, rev_u128(1, 0), "refused 5");

    let name = "a length beyond the word wraps";
    difference!(name, revcomp_u64(4, 33), "refused 5");
    difference!(name, revcomp_u128(4, 65), "refused 5");
    difference!(name, rev_u64(1, 65), "refused 5");
    difference!(name, rev_u128(1, 129), "refused 5");
    difference!(name, pack_kmer_lossy(&[b'C'; 33]), "refused 5");
    difference!(name, pack_kmer_u128_lossy(&[b'C'; 65]), "refused 5");
    difference!(name, unpack_kmer_to_vec(1, 33)[32], "refused 5");
    difference!(name, unpack_kmer_u128_to_vec(1, 65)[64], "refused 5");
}

#[allow(clippy::reversed_empty_ranges)]
fn bounds() {
    let name = "sums wrap in from_raw_parts";
    difference!(name, bases(&[], usize::MAX, 1).len(), "refused 3");
    let name = "bytes have no upper limit";
    difference!(
        name,
        PackedSeq::from_raw_parts(&vec![0; (1 << 28) + 1], 0, 0).len(),
        "refused 1"
    );
    let name = "get reads past the view";
    difference!(name, bases(&[4], 0, 1).get(1), "refused 4");
    let name = "slice reaches past the view";
    difference!(name, bases(&[4], 0, 1).slice(0..2).len(), "refused 4");
    let name = "slice takes a start after its end";
    difference!(name, bases(&[4], 0, 1).slice(1..0).len(), "refused 4");
    let name = "slice normalises";
    let offset = |view| inside::parts::<2>(&view).1;
    difference!(name, offset(bases(&[0, 0], 0, 5).slice(4..5)), "4");
}

fn words() {
    let name = "the word of an empty view is not masked";
    difference!(name, bases(&[1], 0, 0).as_u64(), "0");
    difference!(name, bases(&[1], 0, 0).as_u128(), "0");
    difference!(name, flags(&[1], 0, 0).as_u64(), "0");
    difference!(name, flags(&[1], 0, 0).as_u128(), "0");
    let name = "an empty view has a reversed word";
    difference!(name, bases(&[1], 0, 0).revcomp_as_u64(), "refused 5");
    difference!(name, bases(&[1], 0, 0).revcomp_as_u128(), "refused 5");
    difference!(name, flags(&[1], 0, 0).revcomp_as_u64(), "refused 5");
    difference!(name, flags(&[1], 0, 0).revcomp_as_u128(), "refused 5");

    let name = "the word of a view whose offset is C8 or more misses its end";
    let ones = |n: usize| (u128::MAX >> (128 - n)).to_string();
    difference!(name, bases(&[255; 9], 4, 29).as_u64(), &ones(58));
    difference!(name, bases(&[255; 17], 35, 30).as_u64(), &ones(60));
    difference!(name, bases(&[255; 17], 4, 61).as_u128(), &ones(122));
    difference!(name, bases(&[255; 18], 5, 64).as_u128(), &ones(128));
    difference!(name, flags(&[255; 9], 8, 57).as_u64(), &ones(57));
    difference!(name, flags(&[255; 17], 71, 58).as_u64(), &ones(58));
    difference!(name, flags(&[255; 17], 8, 121).as_u128(), &ones(121));
    difference!(name, flags(&[255; 18], 9, 128).as_u128(), &ones(128));
    let name = "an offset beyond the word that is read wraps";
    difference!(
        name,
        bases(&[1, 0, 0, 0, 0, 0, 0, 0, 0], 32, 1).as_u64(),
        "0"
    );
}

fn reverse() {
    let name = "to_revcomp leaves the offset's bases behind the end";
    let reversed = |view: PackedSeq| inside::bytes(&view.to_revcomp())[..2].to_vec();
    difference!(name, reversed(bases(&[0], 1, 1)), "[2, 0]");
    difference!(name, reversed(bases(&[0, 0], 4, 1)), "[2, 0]");
}

fn stores() {
    let name = "push_seq copies stray bases into the gap";
    difference!(name, bytes(bases(&[1], 1, 1), "")[0], "0");
    let name = "push_seq copies stray bases into the tail";
    difference!(name, bytes(bases(&[4], 0, 1), "")[0], "0");
    difference!(name, bytes(flags(&[2], 0, 1), "")[0], "0");
    let name = "push_seq copies all bytes behind the view";
    difference!(name, bytes(bases(&[1], 0, 0), "").len(), "48");
    difference!(name, bytes(bases(&[1], 0, 0), "")[0], "0");
    let name = "push_seq takes whole leading bytes";
    difference!(name, range(bases(&[0, 0], 4, 1)), "0..1");
    let name = "push_seq flags too little of a gap of whole leading bytes";
    difference!(name, range(flags(&[0, 0], 8, 1)), "0..1");
    difference!(
        name,
        bytes(flags(&[0, 0], 8, 1), "")[0],
        "0, for there is no gap"
    );
    let name = "push_ascii ors onto the tail";
    difference!(name, bytes(bases(&[4], 0, 1), "T")[0], "8");
    let name = "push_ascii leaves a dirty tail, how much depends on the build";
    difference!(
        name,
        bytes(flags(&[255; 5], 0, 0), "A")[..5].to_vec(),
        "[0, 0, 0, 0, 0]"
    );
    let name = "clear leaves no bytes";
    difference!(name, inside::bytes(&cleared()).len(), "48");
    let name = "a cleared store has no view";
    difference!(name, cleared().as_slice().len(), "0");
}

fn streams() {
    let name = "streams show stray bits past the view";
    difference!(name, lane_0(bases(&[4], 0, 1).par_iter_bp(1), 1), "0");
    difference!(name, lane_0(delayed(bases(&[4], 0, 1), 1, 1, 1), 2), "0");
    difference!(name, lane_0(windows(flags(&[2], 0, 1), 1, 1, 0), 1), "0");

    let name = "a context that only the in-byte offset reaches gives steps";
    difference!(name, bases(&[0], 1, 1).par_iter_bp(2).it.len(), "0");
    difference!(name, delayed(bases(&[0], 1, 1), 2, 0, 1).it.len(), "0");
    difference!(name, windows(flags(&[0], 1, 1), 1, 2, 0).it.len(), "0");

    let name = "windows of fewer than k flags are given";
    difference!(
        name,
        lane_0(windows(flags(&[1], 0, 3), 2, 2, 0), 0),
        "refused 10"
    );
    let name = "a context below k is taken for windows";
    difference!(
        name,
        windows(flags(&[1], 0, 3), 2, 1, 1).it.len(),
        "refused 10"
    );

    let name = "context 0 gives no steps";
    difference!(name, bases(&[0], 0, 1).par_iter_bp(0).it.len(), "refused 8");
    let name = "context has no upper limit";
    difference!(
        name,
        bases(&[0], 0, 1).par_iter_bp((1 << 31) + 1).it.len(),
        "refused 8"
    );
    let name = "factors above 2 are taken";
    difference!(
        name,
        delayed(bases(&[0; 24], 0, 96), 1, 0, 3).it.len(),
        "refused 8"
    );
}
