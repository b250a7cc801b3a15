//! Where the original, built with its assertions, panics, and 01 refuses: ours gives the refusal's number.

use crate::tally::{Tally, With};
use oracle::Seq;
use oracle::packed_seq::{
    Bits, PackedSeqBase, SupportedBits, complement_char, pack_char, pack_kmer_lossy,
    pack_kmer_u128_lossy, rev_u64, rev_u128, revcomp_u64, revcomp_u128,
};
use std::hint::black_box;
use std::panic::{AssertUnwindSafe, catch_unwind, set_hook, take_hook};
use tsivelaro::{Chars, Refusal, bases, flags, letters, words};

pub fn compare(tally: &mut Tally) {
    let hook = take_hook();
    set_hook(Box::new(|_| {}));
    let mut both = |input: String, ours: Option<Refusal>, number: u32, original: &dyn Fn()| {
        let panics = catch_unwind(AssertUnwindSafe(original)).is_err();
        let agree = panics && ours.is_some_and(|refusal| refusal.number() == number);
        let told = || format!("  {input}: original panics: {panics}, ours {ours:?}, 01 {number}");
        tally.compare(
            "refusals against panics",
            With::Original,
            agree,
            input.len(),
            told,
        );
    };
    for byte in (0..=255).filter(|byte| !b"ACGTUacgtu".contains(byte)) {
        let ours = letters::pack_char(byte).err();
        both(format!("pack_char({byte})"), ours, 6, &|| {
            hold(pack_char(byte))
        });
    }
    for byte in (0..=255).filter(|byte| !b"ACGT".contains(byte)) {
        let ours = letters::complement_char(byte).err();
        let original = || hold(complement_char(byte));
        both(format!("complement_char({byte})"), ours, 6, &original);
    }
    for len in [0, 33, 34, 63, 64, 65, 127, 128, 129, 1 << 40, usize::MAX] {
        let bad = |most| len == 0 || len > most;
        for word in [0, 4, u64::MAX] {
            let wide = u128::from(word) << 64 | u128::from(word);
            if bad(32) {
                let ours = words::revcomp_u64(word, Chars(len)).err();
                let original = || hold(revcomp_u64(word, len));
                both(format!("revcomp_u64({word}, {len})"), ours, 5, &original);
            }
            if bad(64) {
                let ours = words::rev_u64(word, Chars(len)).err();
                both(format!("rev_u64({word}, {len})"), ours, 5, &|| {
                    hold(rev_u64(word, len))
                });
                let ours = words::revcomp_u128(wide, Chars(len)).err();
                let original = || hold(revcomp_u128(wide, len));
                both(format!("revcomp_u128({wide}, {len})"), ours, 5, &original);
            }
            if bad(128) {
                let ours = words::rev_u128(wide, Chars(len)).err();
                both(format!("rev_u128({wide}, {len})"), ours, 5, &|| {
                    hold(rev_u128(wide, len))
                });
            }
        }
    }
    for n in 33..=100 {
        let text = vec![b'G'; n];
        let ours = words::pack_kmer_lossy(&text).err();
        let original = || hold(pack_kmer_lossy(&text));
        both(format!("pack_kmer_lossy of {n}"), ours, 5, &original);
    }
    for n in 65..=200 {
        let text = vec![b'G'; n];
        let ours = words::pack_kmer_u128_lossy(&text).err();
        let original = || hold(pack_kmer_u128_lossy(&text));
        both(format!("pack_kmer_u128_lossy of {n}"), ours, 5, &original);
    }
    slices::<2>(&mut both, |bytes, len, start, end| {
        let view = bases::View::unasked(bytes, Chars(0), Chars(len));
        view.slice(Chars(start), Chars(end)).err()
    });
    slices::<1>(&mut both, |bytes, len, start, end| {
        let view = flags::View::unasked(bytes, Chars(0), Chars(len));
        view.slice(Chars(start), Chars(end)).err()
    });
    set_hook(hook);
}

fn hold<T>(value: T) {
    black_box(value);
}

/// Ends beyond the view, and starts after their ends.
fn slices<const B: usize>(
    both: &mut impl FnMut(String, Option<Refusal>, u32, &dyn Fn()),
    ours: impl Fn(&[u8], usize, usize, usize) -> Option<Refusal>,
) where
    Bits<B>: SupportedBits,
{
    let bytes = [27; 60];
    for len in 0..20 {
        for start in 0..24 {
            for end in 0..24 {
                if end <= len && start <= end {
                    continue;
                }
                let original = || {
                    let view = PackedSeqBase::<B>::from_raw_parts(&bytes, 0, len);
                    let part = view.slice(start..end);
                    hold(part.len());
                };
                let input = format!("width {B}, length {len}: slice({start}..{end})");
                both(input, ours(&bytes, len, start, end), 4, &original);
            }
        }
    }
}
