//! Stores of flags with their counts: beside the store an entry for each block of 256 characters, how many of its flags are set.
//!
//! ```
//! use tsivelaro::{counts, Chars};
//!
//! let (mut buffer, mut entries) = ([0; 128], [0; 2]);
//! let mut store = counts::Store::clear(&mut buffer, &mut entries)?;
//! store.push_ascii(&[b'N'; 300])?;
//! assert_eq!(store.entries(), [256, 44]);
//! assert_eq!(store.count(Chars(10), Chars(290))?, 280);
//! # Ok::<(), tsivelaro::Refusal>(())
//! ```

use crate::{flags, sys, Chars, Pushed, Refusal};

/// The entries beside a store of n flags: one for each block of 256.
pub fn room(n: Chars) -> usize {
    // SAFETY: it takes a number.
    unsafe { sys::tsiv_counts_room(n.0) }
}

/// A lent buffer with a length in characters, and lent entries. A call counts the blocks of the new length that have a character
/// which it writes, cuts or makes a gap of; all other entries keep their numbers. So a call that touches no character mends none.
///
/// Every call on it refuses what the same call of [`flags::Store`] does, and `NoRoom` also for fewer entries than [`room`] of the
/// new length, where it touches no character too. Refused, buffer, length and entries stay what they were.
#[derive(Debug)]
pub struct Store<'a> {
    buffer: &'a mut [u8],
    len: Chars,
    entries: &'a mut [u16],
}

impl<'a> Store<'a> {
    /// Makes a buffer an empty store; what the entries hold before does not matter, and none is needed.
    ///
    /// Refused: `TooLong`; `NoRoom` for a buffer under 48 bytes.
    pub fn clear(buffer: &'a mut [u8], entries: &'a mut [u16]) -> Result<Self, Refusal> {
        let mut len = 0;
        // SAFETY: the slices' own pointers and lengths, borrowed apart, as below.
        let number = unsafe {
            sys::tsiv_flags_clear_counted(
                buffer.as_mut_ptr(),
                buffer.len(),
                &mut len,
                entries.as_mut_ptr(),
                entries.len(),
            )
        };
        Refusal::check(number).map(|()| Store::again(buffer, Chars(len), entries))
    }

    /// A buffer that holds a store of this length, and its entries. Where there is no such store, every call is refused; entries that are
    /// not right stay so until their block is touched.
    pub fn again(buffer: &'a mut [u8], len: Chars, entries: &'a mut [u16]) -> Self {
        Store {
            buffer,
            len,
            entries,
        }
    }

    /// Its length.
    pub fn len(&self) -> Chars {
        self.len
    }

    /// Whether it has no character.
    pub fn is_empty(&self) -> bool {
        self.len == Chars(0)
    }

    /// The lent buffer.
    pub fn bytes(&self) -> &[u8] {
        self.buffer
    }

    /// The lent entries.
    pub fn entries(&self) -> &[u16] {
        self.entries
    }

    /// All its characters.
    pub fn view(&self) -> flags::View<'_> {
        flags::View::unasked(self.buffer, Chars(0), self.len)
    }

    /// How many flags are set from character `start` up to character `end`: the sum of the entries of the blocks that lie in the
    /// range whole, and the plain count of its ends.
    ///
    /// Refused: `TooLong`; `BadStore`; `BadRange` for an end beyond the length or a start after its end; `NoRoom` for fewer entries
    /// than [`room`] of the length.
    pub fn count(&self, start: Chars, end: Chars) -> Result<u64, Refusal> {
        let mut total = 0;
        // SAFETY: as in `clear`.
        let number = unsafe {
            sys::tsiv_flags_count(
                self.buffer.as_ptr(),
                self.buffer.len(),
                self.len.0,
                self.entries.as_ptr(),
                self.entries.len(),
                start.0,
                end.0,
                &mut total,
            )
        };
        Refusal::check(number).map(|()| total)
    }

    /// Puts the flags of letters at the end. Refused: `TooLong`; `BadStore`; `NoRoom`, of the buffer or of the entries.
    pub fn push_ascii(&mut self, letters: &[u8]) -> Result<Pushed, Refusal> {
        let (mut start, mut end) = (0, 0);
        // SAFETY: as in `clear`.
        let number = unsafe {
            sys::tsiv_flags_push_ascii_counted(
                self.buffer.as_mut_ptr(),
                self.buffer.len(),
                &mut self.len.0,
                self.entries.as_mut_ptr(),
                self.entries.len(),
                letters.as_ptr(),
                letters.len(),
                &mut start,
                &mut end,
            )
        };
        Pushed::check(number, start, end, self.len)
    }

    /// Puts a view behind, in a byte of its own, at its offset's place there; the flags of the gap before it are set.
    ///
    /// Refused: `TooLong`, also for the view's bytes; `BadStore`; `BadView`; `NoRoom`, of the buffer or of the entries.
    pub fn push_seq(&mut self, view: flags::View<'_>) -> Result<Pushed, Refusal> {
        let (mut start, mut end) = (0, 0);
        // SAFETY: as in `clear`.
        let number = unsafe {
            sys::tsiv_flags_push_seq_counted(
                self.buffer.as_mut_ptr(),
                self.buffer.len(),
                &mut self.len.0,
                self.entries.as_mut_ptr(),
                self.entries.len(),
                view.bytes().as_ptr(),
                view.bytes().len(),
                view.offset().0,
                view.len().0,
                &mut start,
                &mut end,
            )
        };
        Pushed::check(number, start, end, self.len)
    }

    /// Puts the flags of letters over those from `start` on.
    ///
    /// Refused: `TooLong`; `BadStore`; `BadRange` where they end beyond the length; `NoRoom` of the entries.
    pub fn overwrite(&mut self, start: Chars, letters: &[u8]) -> Result<(), Refusal> {
        // SAFETY: as in `clear`.
        Refusal::check(unsafe {
            sys::tsiv_flags_overwrite_counted(
                self.buffer.as_mut_ptr(),
                self.buffer.len(),
                &mut self.len.0,
                self.entries.as_mut_ptr(),
                self.entries.len(),
                start.0,
                letters.as_ptr(),
                letters.len(),
            )
        })
    }

    /// Leaves the first m characters. Refused: `TooLong`; `BadStore`; `BadRange` for m above the length; `NoRoom` of the entries.
    pub fn cut(&mut self, m: Chars) -> Result<(), Refusal> {
        // SAFETY: as in `clear`.
        Refusal::check(unsafe {
            sys::tsiv_flags_cut_counted(
                self.buffer.as_mut_ptr(),
                self.buffer.len(),
                &mut self.len.0,
                self.entries.as_mut_ptr(),
                self.entries.len(),
                m.0,
            )
        })
    }
}
