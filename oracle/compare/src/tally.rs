//! How many comparisons were made, what ours was compared with, and where they failed.

use crate::ours::Ours;
use std::{collections::BTreeMap, process::ExitCode};

/// What ours is compared with.
#[derive(Clone, Copy)]
pub enum With {
    /// The original's answer to the same call, or its panic; to windows that are partial, which ours gives step by step alone.
    Original,
    /// What its answers to other calls make up: the original has no such call, or one that differs.
    Parts,
    /// The original's answer to a stream, which ours gives a second time, step by step.
    Again,
    /// Document 01 alone: the original was not asked.
    Rules,
}

const HEADS: [&str; 4] = ["original", "parts", "again", "rules"];

/// How an answer prints order 0.
const EQUAL: u64 = 1;

/// The least number of questions to the original.
const LEAST: usize = 1_000_000;

#[derive(Default)]
struct Family {
    made: [usize; 4],
    disagreed: usize,
    /// The smallest input that disagreed, by its size.
    smallest: Option<(usize, String)>,
}

#[derive(Default)]
pub struct Tally {
    families: BTreeMap<&'static str, Family>,
}

impl Tally {
    /// One comparison of whatever two sides gave.
    pub fn compare(
        &mut self,
        family: &'static str,
        with: With,
        agree: bool,
        size: usize,
        input: impl FnOnce() -> String,
    ) {
        let family = self.families.entry(family).or_default();
        family.made[with as usize] += 1;
        if agree {
            return;
        }
        family.disagreed += 1;
        let smallest = family.smallest.as_ref().map(|(size, _)| *size);
        if smallest.is_none_or(|least| size < least) {
            family.smallest = Some((size, input()));
        }
    }

    /// A case and its answer against ours; a stream is also stepped.
    pub fn case(&mut self, ours: &mut Ours, numbers: &[usize], answer: &[u64]) {
        let size = size(ours, numbers);
        let before = ours.clone();
        let given = ours.answer(numbers);
        let refused = answer.first().is_some_and(|&n| n != 0);
        let with = with(numbers, refused, before.letters());
        let family = family(numbers[0]);
        self.compare(family, with, given == answer, size, || {
            told(&before, numbers, answer, &given)
        });
        if let (60..=63, false) = (numbers[0], refused) {
            self.stepped(&before, numbers, &answer[3..], With::Again);
        }
    }

    /// A stream's entries against ours, step by step.
    pub fn stepped(&mut self, ours: &Ours, numbers: &[usize], entries: &[u64], with: With) {
        let given = ours.stepped(numbers);
        let family = if numbers[0] == 63 {
            "windows, stepped"
        } else {
            "streams, stepped"
        };
        let size = size(ours, numbers);
        self.compare(family, with, given == entries, size, || {
            told(ours, numbers, entries, &given)
        });
    }

    /// The one answer of a comparison against the three of the original: `cmp_lcp`, `cmp`, and `==`, which holds exactly at order 0.
    pub fn compared(&mut self, ours: &mut Ours, numbers: &[usize], answers: [&[u64]; 3]) {
        let size = size(ours, numbers);
        let given = ours.answer(numbers);
        let equal = given[..2] == [0, EQUAL];
        let all = [&given[..], &given[..2], &[given[0], equal.into()]];
        let names = ["order, cmp_lcp", "order, cmp", "order, =="];
        for ((name, given), answer) in names.into_iter().zip(all).zip(answers) {
            let with = with(numbers, answer[0] != 0, &[]);
            self.compare(name, with, given == answer, size, || {
                told(ours, numbers, answer, given)
            });
        }
    }

    pub fn report(&self) -> ExitCode {
        let mut all = [0; 4];
        let mut wrong = 0;
        let line = |name: &str, made: [String; 4], disagree: &str| {
            let [original, parts, again, rules] = made;
            println!("{name:<28} {original:>9} {parts:>9} {again:>9} {rules:>9} {disagree:>9}");
        };
        line("family", HEADS.map(String::from), "disagree");
        for (name, family) in &self.families {
            let made = family.made.map(|n| n.to_string());
            line(name, made, &family.disagreed.to_string());
            for (sum, made) in all.iter_mut().zip(family.made) {
                *sum += made;
            }
            wrong += family.disagreed;
        }
        for (name, family) in &self.families {
            if let Some((_, input)) = &family.smallest {
                println!("{name}: smallest input that disagrees\n{input}");
            }
        }
        let [original, parts, again, rules] = all;
        println!(
            "asked of the original: {original}; held to the rules only: {rules}; \
             made of the original's answers to other calls: {parts}; its streams again, stepped: {again}"
        );
        println!(
            "{} comparisons, {wrong} disagreements",
            all.iter().sum::<usize>()
        );
        if wrong == 0 && original >= LEAST {
            ExitCode::SUCCESS
        } else {
            ExitCode::FAILURE
        }
    }
}

/// How much a case is given.
fn size(ours: &Ours, numbers: &[usize]) -> usize {
    ours.size() + numbers.iter().map(|&n| n.min(1 << 20)).sum::<usize>()
}

fn told(before: &Ours, numbers: &[usize], answer: &[u64], given: &[u64]) -> String {
    format!("{before}\n  call {numbers:?}\n  expected {answer:?}\n  ours     {given:?}")
}

/// What a case's answer is taken from, as the heads of `oracle::cases` say.
fn with(numbers: &[usize], refused: bool, letters: &[u8]) -> With {
    let has_u = |letters: &[u8]| letters.iter().any(|letter| b"Uu".contains(letter));
    match numbers[0] {
        // U and u, of which T is asked
        10 if has_u(&[numbers[1] as u8]) => With::Parts,
        // its lossy code and its flag, for every byte
        10 => With::Original,
        _ if refused => With::Rules,
        // the word of an empty view
        34 | 35 if numbers[3] == 0 => With::Rules,
        // a push of nothing
        51 if letters.is_empty() => With::Rules,
        // flags with U, of which T is asked
        51 if numbers[1] == 1 && has_u(letters) => With::Parts,
        // find, least, clear, overwrite, cut
        43 | 44 | 50 | 53 | 54 => With::Parts,
        _ => With::Original,
    }
}

fn family(call: usize) -> &'static str {
    match call {
        10 | 11 => "letters",
        20 | 21 => "words, packing",
        22 | 23 => "words, unpacking",
        24..=27 => "words, reversing",
        31 => "views, get",
        32 => "views, get of a slice",
        34..=37 => "views, words",
        38 => "reverse complement",
        39 => "unpacking",
        43 => "find (added)",
        44 => "least (added)",
        50 => "stores, clear",
        51 => "stores, push_ascii",
        52 => "stores, push_seq",
        53 => "stores, overwrite (added)",
        54 => "stores, cut (added)",
        60 => "streams, no delay",
        61 => "streams, one delay",
        62 => "streams, two delays",
        _ => "windows",
    }
}
