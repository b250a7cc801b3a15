//! How a case is told: a line with its numbers and the numbers of its answer. A line that only fills a buffer has no answer.
//!
//! Lines are printed, as `numbers = answer`, unless someone listens.

use std::cell::RefCell;

/// The largest number that a case can give.
pub const HUGE: usize = u32::MAX as usize;

/// The most numbers on a printed line, and the most bytes of a buffer.
const MOST: usize = 500;

pub enum Line<'a> {
    /// The content of the first buffer.
    First(&'a [u8]),
    /// The content of the second buffer.
    Second(&'a [u8]),
    /// The size of the third buffer, which calls write to, and the byte that it is filled with.
    Out(usize, u8),
    /// The numbers of a case, and of its answer.
    Case(&'a [usize], &'a [u64]),
    /// The numbers of a comparison, and what `cmp_lcp`, `cmp` and `==` answer; the first alone is printed.
    Compared(&'a [usize], [&'a [u64]; 3]),
    /// The numbers of windows that filling refuses as partial, and their entries, which stepping gives; not printed.
    Stepped(&'a [usize], &'a [u64]),
}

type Listener = Box<dyn FnMut(Line)>;

thread_local! {
    static LISTENER: RefCell<Option<Listener>> = const { RefCell::new(None) };
}

/// From now on lines are told to `listener`, and not printed.
pub fn listen(listener: impl FnMut(Line) + 'static) {
    LISTENER.set(Some(Box::new(listener)));
}

fn tell(line: Line) {
    LISTENER.with_borrow_mut(|listener| match listener {
        Some(listener) => listener(line),
        None => print(line),
    });
}

fn print(line: Line) {
    match line {
        Line::First(bytes) => println!("1{}", fill(bytes)),
        Line::Second(bytes) => println!("2{}", fill(bytes)),
        Line::Out(size, byte) => {
            assert!(size <= MOST, "{size}");
            println!("3 {size} {byte}");
        }
        Line::Case(numbers, answer) | Line::Compared(numbers, [answer, ..]) => {
            println!("{} = {}", spaced(numbers), spaced(answer))
        }
        Line::Stepped(..) => {}
    }
}

pub fn case(numbers: &[usize], answer: &[u64]) {
    assert!(numbers.iter().all(|&n| n <= HUGE), "{numbers:?}");
    tell(Line::Case(numbers, answer));
}

/// A comparison, and the three answers of the original.
pub fn compared(numbers: &[usize], answers: [&[u64]; 3]) {
    assert!(numbers.iter().all(|&n| n <= HUGE), "{numbers:?}");
    tell(Line::Compared(numbers, answers));
}

/// Windows that are only stepped.
pub fn stepped(numbers: &[usize], entries: &[u64]) {
    tell(Line::Stepped(numbers, entries));
}

/// Fills the first buffer.
pub fn first(bytes: &[u8]) {
    tell(Line::First(bytes));
}

/// Fills the second buffer.
pub fn second(bytes: &[u8]) {
    tell(Line::Second(bytes));
}

/// Fills the third buffer with one byte.
pub fn out(size: usize, byte: u8) -> Vec<u8> {
    tell(Line::Out(size, byte));
    vec![byte; size]
}

/// A word as the two numbers that a case gives for it, high and low.
pub fn split(word: u64) -> [usize; 2] {
    [word >> 32, word % (1 << 32)].map(|half| half as usize)
}

/// A word of 128 bits as the two numbers of an answer, low and high.
pub fn halves(word: u128) -> [u64; 2] {
    [word as u64, (word >> 64) as u64]
}

/// An answer and all bytes of a buffer.
pub fn with_bytes(answer: &[u64], bytes: &[u8]) -> Vec<u64> {
    answer
        .iter()
        .copied()
        .chain(bytes.iter().map(|&byte| byte.into()))
        .collect()
}

fn fill(bytes: &[u8]) -> String {
    assert!(bytes.len() < MOST, "{}", bytes.len());
    bytes.iter().map(|byte| format!(" {byte}")).collect()
}

fn spaced<T: ToString>(numbers: &[T]) -> String {
    let numbers: Vec<String> = numbers.iter().map(T::to_string).collect();
    numbers.join(" ")
}
