//! .2bit files of 16 million bases, written and read, against copying the bytes of the same file.

use crate::job::job;
use std::hint::black_box;
use tsivelaro::{Chars, Refusal, bases, flags, twobit};

const BASES: usize = 16_000_000;

pub fn jobs(text: &[u8]) -> Result<(), Refusal> {
    let random: Vec<u8> = text.iter().cycle().take(BASES).copied().collect();
    let runs = with_runs(&random);
    file("runs of 10,000 N", &runs)?;
    file("one in a hundred an N", &random)
}

/// The same letters without N, but for runs of 10,000, as an assembly has them.
fn with_runs(random: &[u8]) -> Vec<u8> {
    let letter = |(i, &x): (usize, &u8)| match x {
        _ if i % 1_000_000 < 10_000 => b'N',
        b'N' => b'A',
        _ => x,
    };
    random.iter().enumerate().map(letter).collect()
}

fn file(name: &str, text: &[u8]) -> Result<(), Refusal> {
    let mut tracks = (
        vec![0; bases::room(Chars(BASES))],
        vec![0; flags::room(Chars(BASES))],
    );
    let mut letters = bases::Store::clear(&mut tracks.0)?;
    letters.push_ascii(text)?;
    let mut marks = flags::Store::clear(&mut tracks.1)?;
    marks.push_ascii(text)?;
    let (letters, marks) = (letters.view(), marks.view());
    let size = 22 + twobit::record_size(marks)?;
    let write = |out: &mut [u8]| {
        let mut file = twobit::Writing::start(1, 1, out)?;
        file.add(b"s", letters, marks)?;
        file.finish()
    };
    let mut made = vec![0; size];
    assert_eq!(write(&mut made), Ok(size));
    if let Ok(folder) = std::env::var("TWOBIT_FOLDER") {
        let path = format!("{folder}/{}.2bit", name.replace(' ', "-"));
        std::fs::write(path, &made).expect("the folder can be written");
    }
    job(
        &format!("write, {name}"),
        (vec![0; size], vec![0; size]),
        |(out, _)| black_box(write(out)).is_ok(),
        |(_, copy)| copy.copy_from_slice(black_box(&made)),
        |(out, copy), done, ()| done && out == copy,
    );
    let state = (
        vec![1; bases::room(Chars(BASES))],
        vec![1; flags::room(Chars(BASES))],
        vec![0; size],
    );
    job(
        &format!("read, {name}"),
        state,
        |(b, f, _)| twobit::record(black_box(&made), 22, b, f),
        |(_, _, copy)| copy.copy_from_slice(black_box(&made)),
        |(_, f, copy), read, ()| {
            let right = Ok(twobit::Read {
                len: Chars(BASES),
                masks: 0,
            });
            read == right && *f == marks.bytes() && *copy == made
        },
    );
    Ok(())
}
