//! Stores of flags with their counts, against the same without: a push that carries entries against a plain one, and a query that goes by
//! them against a count of all words.

use crate::LETTERS;
use crate::job::job;
use std::hint::black_box;
use tsivelaro::{Chars, Refusal, counts, flags};

pub fn jobs(text: &[u8]) -> Result<(), Refusal> {
    for each in [LETTERS, 150] {
        pushes(text, each);
    }
    query(text)
}

/// So many letters at a time onto one store; the other store is ours too, and has no entries.
fn pushes(text: &[u8], each: usize) {
    let name = match each {
        LETTERS => "push_ascii, flags, counts / none",
        _ => "the same, 150 at a time",
    };
    let room = flags::room(Chars(LETTERS));
    let state = (
        vec![0; room],
        vec![0; counts::room(Chars(LETTERS))],
        vec![0; room],
    );
    job(
        name,
        state,
        |(buffer, entries, _)| {
            let mut store = counts::Store::clear(buffer, entries)?;
            for letters in text.chunks_exact(each) {
                store.push_ascii(letters)?;
            }
            Ok::<_, Refusal>(store.len())
        },
        |(_, _, plain)| {
            let mut store = flags::Store::clear(plain)?;
            for letters in text.chunks_exact(each) {
                store.push_ascii(letters)?;
            }
            Ok::<_, Refusal>(store.len())
        },
        |(buffer, entries, plain), a, b| {
            let right = text[..LETTERS / each * each]
                .chunks(256)
                .zip(entries)
                .all(|(block, &entry)| set(block) == entry.into());
            a == b && buffer == plain && right
        },
    );
}

/// The ambiguous letters.
fn set(letters: &[u8]) -> u64 {
    letters.iter().filter(|&&l| l == b'N').count() as u64
}

/// All flags of a store, by its entries and by its words.
fn query(text: &[u8]) -> Result<(), Refusal> {
    let mut buffer = vec![0; flags::room(Chars(LETTERS))];
    let mut entries = vec![0; counts::room(Chars(LETTERS))];
    let mut store = counts::Store::clear(&mut buffer, &mut entries)?;
    store.push_ascii(text)?;
    job(
        "100 counts, by entries / by words",
        store,
        |store| {
            (0..100).try_fold(0, |sum, _| {
                Ok(sum + black_box(&*store).count(Chars(0), Chars(LETTERS))?)
            })
        },
        |store| (0..100).map(|_| words(black_box(&*store).bytes())).sum(),
        |_, a: Result<u64, Refusal>, b: u64| a == Ok(b) && b == 100 * set(text),
    );
    Ok(())
}

/// The set bits of a store's words.
fn words(bytes: &[u8]) -> u64 {
    let (words, _) = bytes[..LETTERS / 8].as_chunks();
    words
        .iter()
        .map(|&word| u64::from(u64::from_le_bytes(word).count_ones()))
        .sum()
}
