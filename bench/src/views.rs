//! Views: letters, reverse complement, order, words, places; and the stored form.

use crate::job::{alone, job};
use crate::{LETTERS, packed_by};
use oracle::packed_seq::{BitSeqVec, PackedSeq, PackedSeqVec, inside, revcomp_u64};
use oracle::{Seq, SeqVec};
use std::cmp::Ordering;
use std::hint::black_box;
use tsivelaro::{Chars, Refusal, bases, flags, form, words};

const LEN: Chars = Chars(LETTERS);

pub fn jobs(text: &[u8]) -> Result<(), Refusal> {
    let theirs = packed_by::<PackedSeqVec>(text);
    let packed = inside::bytes(&theirs);
    writing(bases::View::new(packed, Chars(0), LEN)?, theirs.as_slice());
    for each in [32, 30, 61, 150] {
        reversing(packed, theirs.as_slice(), each);
    }
    // The same bases at another offset.
    let moved = [&[0][..], &shifted(packed), &[0]].concat();
    order(packed, packed, 0)?;
    order(packed, &moved, 5)?;
    let word = |i: usize| (i as u64).wrapping_mul(0x9E3779B97F4A7C15);
    short_words(
        "revcomp_u64, a million words",
        LETTERS,
        |i| words::revcomp_u64(word(i), Chars(31)),
        |i| revcomp_u64(word(i), 31),
    );
    let all = theirs.as_slice();
    short_words(
        "as_u64 of 29 bases, all offsets",
        LETTERS - 28,
        |o| bases::View::unasked(packed, Chars(o), Chars(29)).as_u64(),
        |o| all.slice(o..o + 29).as_u64(),
    );
    finding(
        "find 16 letters in random ones",
        text,
        &text[LETTERS - 16..],
    )?;
    let mut plain = vec![b'A'; LETTERS];
    plain[LETTERS - 1] = b'C';
    let last = |len: usize| &plain[LETTERS - len..];
    finding("find 15 As and a C in As and a C", &plain, last(16))?;
    finding(
        "find 15 As and a G there: absent",
        &plain,
        b"AAAAAAAAAAAAAAAG",
    )?;
    finding(
        "find a G and 15 As there: absent",
        &plain,
        b"GAAAAAAAAAAAAAAA",
    )?;
    finding("find 999 As and a C in As and a C", &plain, last(1000))?;
    storing(text)
}

fn writing(view: bases::View, all: PackedSeq) {
    job(
        "unpack",
        (vec![0; LETTERS], vec![]),
        |(letters, _)| view.unpack(letters),
        |(_, letters)| {
            letters.clear();
            all.unpack_into(letters);
        },
        |(ours, theirs), a, ()| a == Ok(()) && ours == theirs,
    );
    job(
        "to_revcomp",
        vec![0; bases::room(LEN)],
        |out| view.to_revcomp(out).map(|v| v.len()),
        |_| all.to_revcomp(),
        |out, a, b| a == Ok(LEN) && out == inside::bytes(&b),
    );
}

/// Views of so many bases, one behind the other; those of 32 are whole words.
fn reversing(packed: &[u8], all: PackedSeq, each: usize) {
    let ours = |out: &mut Vec<u8>, i: usize| {
        let view = bases::View::unasked(packed, Chars(i * each), Chars(each));
        view.to_revcomp(out).map(|_| ())
    };
    let original = |i: usize| all.slice(i * each..(i + 1) * each).to_revcomp();
    let (views, room) = (0..LETTERS / each, bases::room(Chars(each)));
    job(
        &format!("to_revcomp, {each} at a time"),
        vec![0; room],
        |out| views.clone().try_for_each(|i| ours(out, i)),
        |_| views.clone().for_each(|i| drop(black_box(original(i)))),
        |_, a, ()| {
            let mut out = vec![0; room];
            let mut same = |i| {
                let done = ours(&mut out, i) == Ok(());
                done && PackedSeq::from_raw_parts(&out, 0, each) == original(i).as_slice()
            };
            a == Ok(()) && views.clone().all(&mut same)
        },
    );
}

/// The characters one place up.
fn shifted(packed: &[u8]) -> Vec<u8> {
    let before = [0].iter().chain(packed);
    before
        .zip(packed)
        .map(|(low, high)| low >> 6 | high << 2)
        .collect()
}

/// The same bases twice, at offset 0 and at another: all are compared.
fn order(packed: &[u8], moved: &[u8], offset: usize) -> Result<(), Refusal> {
    let a = bases::View::new(packed, Chars(0), LEN)?;
    let b = bases::View::new(moved, Chars(offset), LEN)?;
    let x = PackedSeq::from_raw_parts(packed, 0, LETTERS);
    let y = PackedSeq::from_raw_parts(moved, offset, LETTERS);
    let name = |call: &str| format!("compare for {call}, offsets 0 and {offset}");
    let ours = |_: &mut ()| a.compare(b);
    let equal = Ok((Ordering::Equal, LEN));
    job(
        &name("cmp_lcp"),
        (),
        ours,
        |()| x.cmp_lcp(&y),
        |(), a, b| a == equal && b == (Ordering::Equal, LETTERS),
    );
    job(
        &name("cmp"),
        (),
        ours,
        |()| x.cmp(&y),
        |(), a, b| a == equal && b == Ordering::Equal,
    );
    job(
        &name("=="),
        (),
        ours,
        |()| x == y,
        |(), a, b| a == equal && b,
    );
    Ok(())
}

/// So many words asked for each way. They are folded by a sum that the compiler may take in any order, and held equal one by one.
fn short_words(
    name: &str,
    words: usize,
    ours: impl Fn(usize) -> Result<u64, Refusal>,
    original: impl Fn(usize) -> u64,
) {
    job(
        name,
        (),
        |()| (0..words).fold(0, |sum, i| sum ^ ours(i).unwrap_or(0)),
        |()| (0..words).fold(0, |sum, i| sum ^ original(i)),
        |(), a, b| a == b && (0..words).all(|i| ours(i) == Ok(original(i))),
    );
}

/// Letters in a text, whose last ones they are, or which does not have them. The original has no such call: it is asked for the word at
/// each place, and for a pattern longer than a word whether the views are equal.
fn finding(name: &str, text: &[u8], letters: &[u8]) -> Result<(), Refusal> {
    let (theirs, sought) = (
        packed_by::<PackedSeqVec>(text),
        packed_by::<PackedSeqVec>(letters),
    );
    let (len, all, wanted) = (letters.len(), theirs.as_slice(), sought.as_slice());
    let last = LETTERS - len;
    let view = bases::View::new(inside::bytes(&theirs), Chars(0), LEN)?;
    let pattern = bases::View::new(inside::bytes(&sought), Chars(0), Chars(len))?;
    let place = text.ends_with(letters).then_some(last);
    let same = |_: &(), a, b: Option<usize>| a == Ok(b.map(Chars)) && b == place;
    let ours = |_: &mut ()| view.find(pattern);
    if len <= 29 {
        let word = wanted.as_u64();
        let original = |_: &mut ()| (0..last + 1).find(|&p| all.slice(p..p + len).as_u64() == word);
        job(name, (), ours, original, same);
    } else {
        let original = |_: &mut ()| (0..last + 1).find(|&p| all.slice(p..p + len) == wanted);
        job(name, (), ours, original, same);
    }
    Ok(())
}

/// The stored form of a million letters, which the original does not have.
fn storing(text: &[u8]) -> Result<(), Refusal> {
    let (b, f) = (
        packed_by::<PackedSeqVec>(text),
        packed_by::<BitSeqVec>(text),
    );
    let bases_view = bases::View::new(inside::bytes(&b), Chars(0), LEN)?;
    let flags_view = flags::View::new(inside::bytes(&f), Chars(0), LEN)?;
    let mut stored = vec![0; form::room(LEN)];
    form::write(bases_view, flags_view, &mut stored)?;
    alone(
        "form::write",
        vec![0; form::room(LEN)],
        |out| form::write(bases_view, flags_view, out),
        |out, answer| answer == Ok(stored.len()) && *out == stored,
    );
    alone(
        "form::read",
        (vec![0; bases::room(LEN)], vec![0; flags::room(LEN)]),
        |(x, y)| form::read(&stored, x, y),
        |(x, y), answer| answer == Ok(LEN) && x == inside::bytes(&b) && y == inside::bytes(&f),
    );
    Ok(())
}
