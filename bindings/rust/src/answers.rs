//! What the calls answer.

use std::{error::Error, fmt};

/// A count of characters, or the place of one.
#[derive(Clone, Copy, Debug, Default, PartialEq, Eq, PartialOrd, Ord, Hash)]
pub struct Chars(pub usize);

/// Why a call refuses: its number, and its name in the rules. Of several that hold the lowest is given, but `Partial` before
/// `NoRoom`; a refused call changes no lent byte. Later versions may refuse for more reasons.
#[derive(Clone, Copy, Debug, PartialEq, Eq, Hash)]
#[non_exhaustive]
#[repr(u32)]
pub enum Refusal {
    /// A view's bytes, a store's buffer or a stored form to be read exceeds 2^28 bytes.
    TooLong = 1,
    /// The bytes of a store's length and 48 more exceed its buffer.
    BadStore = 2,
    /// A view's offset, length and 48 bytes behind exceed its bytes.
    BadView = 3,
    /// An index, an end or a start outside its range; tracks of unequal lengths, or too long for a form; what a .2bit file cannot
    /// hold, or its state does not allow; a cursor past the last entry.
    BadRange = 4,
    /// A word's length outside its range.
    BadWord = 5,
    /// A byte that is no such letter, or a code above 3.
    BadLetter = 6,
    /// Bytes that are no stored form, or no .2bit file.
    BadForm = 7,
    /// Stream numbers outside their ranges.
    BadStream = 8,
    /// An output buffer is shorter than the answer needs, or there are fewer entries than a store has blocks.
    NoRoom = 9,
    /// Windows of k flags with a skip below k - 1 or a context below k.
    Partial = 10,
}

impl Refusal {
    const ALL: [Refusal; 10] = [
        Refusal::TooLong,
        Refusal::BadStore,
        Refusal::BadView,
        Refusal::BadRange,
        Refusal::BadWord,
        Refusal::BadLetter,
        Refusal::BadForm,
        Refusal::BadStream,
        Refusal::NoRoom,
        Refusal::Partial,
    ];

    /// Its number, 1 to 10.
    pub fn number(self) -> u32 {
        self as u32
    }

    /// A call's number: nothing where it is done.
    pub(crate) fn check(number: u32) -> Result<(), Refusal> {
        match number {
            0 => Ok(()),
            n => Err(Refusal::ALL[n as usize - 1]),
        }
    }
}

impl fmt::Display for Refusal {
    fn fmt(&self, f: &mut fmt::Formatter<'_>) -> fmt::Result {
        f.write_str(match self {
            Refusal::TooLong => "TOO_LONG",
            Refusal::BadStore => "BAD_STORE",
            Refusal::BadView => "BAD_VIEW",
            Refusal::BadRange => "BAD_RANGE",
            Refusal::BadWord => "BAD_WORD",
            Refusal::BadLetter => "BAD_LETTER",
            Refusal::BadForm => "BAD_FORM",
            Refusal::BadStream => "BAD_STREAM",
            Refusal::NoRoom => "NO_ROOM",
            Refusal::Partial => "PARTIAL",
        })
    }
}

impl Error for Refusal {}

/// A part of lent bytes: its first byte and its count of bytes, and a view's offset and length in it.
#[derive(Clone, Copy, Debug, Default, PartialEq, Eq)]
pub struct Part {
    /// The first byte.
    pub at: usize,
    /// How many bytes.
    pub size: usize,
    /// The view's offset in them.
    pub offset: Chars,
    /// The view's length.
    pub len: Chars,
}

/// Where a push put its characters, and the store's length after it.
#[derive(Clone, Copy, Debug, Default, PartialEq, Eq)]
pub struct Pushed {
    /// The first character.
    pub start: Chars,
    /// Behind the last one.
    pub end: Chars,
    /// The store's length.
    pub len: Chars,
}

impl Pushed {
    /// What a push gave, where its number is 0.
    pub(crate) fn check(
        number: u32,
        start: usize,
        end: usize,
        len: Chars,
    ) -> Result<Self, Refusal> {
        Refusal::check(number).map(|()| Pushed {
            start: Chars(start),
            end: Chars(end),
            len,
        })
    }
}

/// The numbers of a stream.
#[derive(Clone, Copy, Debug, Default, PartialEq, Eq)]
pub struct Shape {
    /// The characters of a lane.
    pub lane: Chars,
    /// The steps.
    pub steps: usize,
    /// The positions behind the last one that counts.
    pub padding: Chars,
}

/// What a fill wrote.
#[derive(Clone, Copy, Debug, Default, PartialEq, Eq)]
pub struct Filled {
    /// The steps written, eight entries each.
    pub steps: usize,
    /// The positions behind the last one that counts.
    pub padding: Chars,
}

/// The running state of flag windows: eight lane counts and the step; `Windows::default()` is the start.
#[derive(Clone, Copy, Debug, Default, PartialEq, Eq)]
pub struct Windows {
    /// The set flags of each lane among the last k - 1 positions.
    pub counts: [u32; 8],
    /// The step.
    pub step: usize,
}
