//! Letters and views put into stores.

use crate::job::{alone, job};
use crate::{LETTERS, letters, packed_by};
use oracle::packed_seq::{BitSeqVec, PackedSeq, PackedSeqVec, inside};
use oracle::{Seq, SeqVec};
use tsivelaro::{Chars, Refusal, bases, flags};

pub fn jobs(text: &[u8]) -> Result<(), Refusal> {
    for each in [LETTERS, 60, 61, 150] {
        pushes_of_bases(text, each);
    }
    for each in [LETTERS, 60, 61, 150] {
        pushes_of_flags(text, each);
    }
    for part in [999, 150, 30] {
        gluing(text, part);
    }
    for each in [LETTERS - 2, 150, 30] {
        overwriting(text, each);
    }
    Ok(())
}

macro_rules! pushes {
    ($name:ident, $width:ident, $original:ty) => {
        /// So many letters at a time onto one store.
        fn $name(text: &[u8], each: usize) {
            let name = match each {
                LETTERS => format!("push_ascii, {}", stringify!($width)),
                _ => format!("push_ascii, {}, {each} at a time", stringify!($width)),
            };
            let state = (
                vec![0; $width::room(Chars(LETTERS))],
                <$original>::default(),
            );
            job(
                &name,
                state,
                |(buffer, _)| {
                    let mut store = $width::Store::clear(buffer)?;
                    for letters in text.chunks_exact(each) {
                        store.push_ascii(letters)?;
                    }
                    Ok::<_, Refusal>(store.len())
                },
                |(_, theirs)| {
                    theirs.clear();
                    for letters in text.chunks_exact(each) {
                        theirs.push_ascii(letters);
                    }
                    theirs.len()
                },
                |(buffer, theirs), a, b| {
                    a == Ok(Chars(b)) && buffer.starts_with(inside::bytes(theirs))
                },
            );
        }
    };
}

pushes!(pushes_of_bases, bases, PackedSeqVec);
pushes!(pushes_of_flags, flags, BitSeqVec);

/// Views of so many bases onto one store. The original leaves stray bases between and behind them, so that only the views are compared.
fn gluing(text: &[u8], part: usize) {
    let theirs = packed_by::<PackedSeqVec>(text);
    let (packed, all) = (inside::bytes(&theirs), theirs.as_slice());
    let views = LETTERS / (part + 1);
    let state = (
        vec![0; bases::room(Chars(LETTERS + 8 * views))],
        PackedSeqVec::default(),
    );
    job(
        &format!("push_seq, {views} views of {part} bases"),
        state,
        |(buffer, _)| {
            let mut store = bases::Store::clear(buffer)?;
            for i in 0..views {
                store.push_seq(bases::View::unasked(
                    packed,
                    Chars((part + 1) * i),
                    Chars(part),
                ))?;
            }
            Ok::<_, Refusal>(store.len())
        },
        |(_, glued)| {
            glued.clear();
            for i in 0..views {
                let start = (part + 1) * i;
                glued.push_seq(all.slice(start..start + part));
            }
            glued.len()
        },
        |(buffer, glued), a, b| {
            let mut len = 0;
            let held = (0..views).all(|i| {
                let from = (part + 1) * i;
                let start = usize::next_multiple_of(len, 4) + from % 4;
                len = start + part;
                let ours = PackedSeq::from_raw_parts(buffer, start, part);
                ours == glued.as_slice().slice(start..len) && ours == all.slice(from..from + part)
            });
            held && a == Ok(Chars(len)) && b == len
        },
    );
}

/// So many letters at a time over those of a store.
fn overwriting(text: &[u8], each: usize) {
    let other = &letters(2)[1..LETTERS - 1];
    let before = packed_by::<PackedSeqVec>(text);
    let mut after = text.to_vec();
    let whole = other.len() / each * each;
    after[1..1 + whole].copy_from_slice(&other[..whole]);
    let after = packed_by::<PackedSeqVec>(&after);
    let name = match other.len() == each {
        true => "overwrite, bases".into(),
        false => format!("overwrite, bases, {each} at a time"),
    };
    alone(
        &name,
        inside::bytes(&before).to_vec(),
        |buffer| {
            let mut store = bases::Store::again(buffer, Chars(LETTERS));
            for (i, letters) in other.chunks_exact(each).enumerate() {
                store.overwrite(Chars(1 + each * i), letters)?;
            }
            Ok::<_, Refusal>(())
        },
        |buffer, answer| answer == Ok(()) && buffer == inside::bytes(&after),
    );
}
