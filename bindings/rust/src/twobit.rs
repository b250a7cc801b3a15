//! .2bit files, version 0: written one sequence at a time into a lent buffer, and read from lent bytes in either byte order.
//!
//! ```
//! use tsivelaro::{bases, flags, twobit, Chars};
//!
//! let (mut b, mut f) = ([0; 64], [0; 64]);
//! let mut letters = bases::Store::clear(&mut b)?;
//! let mut marks = flags::Store::clear(&mut f)?;
//! letters.push_ascii(b"ACGTNNAC")?;
//! marks.push_ascii(b"ACGTNNAC")?;
//!
//! let mut out = [0; 64];
//! let mut file = twobit::Writing::start(1, 4, &mut out)?;
//! file.add(b"chr1", letters.view(), marks.view())?;
//! let size = file.finish()?;
//!
//! let file = &out[..size];
//! assert_eq!(twobit::check(file)?, 1);
//! let (entry, _) = twobit::entry(file, twobit::first(file)?)?;
//! assert_eq!(entry.name, b"chr1");
//! let info = twobit::record_info(file, entry.offset)?;
//! assert_eq!((info.len, info.blocks, info.masks), (Chars(8), 1, 0));
//! let (mut b, mut f) = (vec![0; bases::room(info.len)], vec![0; flags::room(info.len)]);
//! let read = twobit::record(file, entry.offset, &mut b, &mut f)?;
//! assert_eq!((read.len, read.masks), (info.len, info.masks));
//! assert_eq!(f[0], 0b0011_0000);
//! # Ok::<(), tsivelaro::Refusal>(())
//! ```

use crate::{bases, flags, sys, Chars, Refusal};

/// A file that is being written into a lent buffer: little-endian, without mask blocks, an N block for each run of set flags. A flag
/// says no more than that a letter is ambiguous: R, Y and the like become N.
#[derive(Debug)]
pub struct Writing<'a> {
    out: &'a mut [u8],
    entry: usize,
    stop: usize,
    place: usize,
    left: usize,
}

impl<'a> Writing<'a> {
    /// Begins a file of `count` sequences, whose names have so many bytes in all: writes the header to the front of a buffer.
    ///
    /// Refused: `BadRange` for a count of 2^32 or more; `NoRoom` for a buffer that has no room for header and index,
    /// 16 + 5 * count + names bytes.
    pub fn start(count: usize, names: usize, out: &'a mut [u8]) -> Result<Self, Refusal> {
        let (mut entry, mut stop, mut place, mut left) = (0, 0, 0, 0);
        // SAFETY: the slice's own pointer and length, and numbers borrowed apart.
        let number = unsafe {
            sys::tsiv_twobit_start(
                count,
                names,
                out.as_mut_ptr(),
                out.len(),
                &mut entry,
                &mut stop,
                &mut place,
                &mut left,
            )
        };
        Refusal::check(number).map(|()| Writing {
            out,
            entry,
            stop,
            place,
            left,
        })
    }

    /// Adds a sequence, a view of bases and a view of flags: writes its index entry and its record, and nothing else.
    ///
    /// Refused: `TooLong` and `BadView` of either view; `BadRange` for unequal lengths, a name over 255 bytes, no sequence left, an
    /// entry that would end beyond the index, or a record that would begin at 2^32 or later; `NoRoom` for a record that would end
    /// beyond the buffer: it has [`record_size`] bytes. Refused, nothing changes.
    pub fn add(
        &mut self,
        name: &[u8],
        bases: bases::View<'_>,
        flags: flags::View<'_>,
    ) -> Result<(), Refusal> {
        let (b, f) = (bases.bytes(), flags.bytes());
        // SAFETY: the slices' own pointers and lengths; the buffer and the numbers are borrowed apart from all of them.
        let number = unsafe {
            sys::tsiv_twobit_add(
                &mut self.entry,
                self.stop,
                &mut self.place,
                &mut self.left,
                name.as_ptr(),
                name.len(),
                b.as_ptr(),
                b.len(),
                bases.offset().0,
                bases.len().0,
                f.as_ptr(),
                f.len(),
                flags.offset().0,
                flags.len().0,
                self.out.as_mut_ptr(),
                self.out.len(),
            )
        };
        Refusal::check(number)
    }

    /// How many sequences are still to be added.
    pub fn left(&self) -> usize {
        self.left
    }

    /// The bytes of the file. Refused: `BadRange` where sequences are left, or the index is not full.
    pub fn finish(&self) -> Result<usize, Refusal> {
        let mut size = 0;
        // SAFETY: numbers, and one borrowed apart.
        let number = unsafe {
            sys::tsiv_twobit_finish(self.entry, self.stop, self.place, self.left, &mut size)
        };
        Refusal::check(number).map(|()| size)
    }
}

/// The bytes of the record of a sequence with these flags: 16, 8 for each run of set flags, and a byte for every four characters
/// begun. Refused: `TooLong`; `BadView`.
pub fn record_size(flags: flags::View<'_>) -> Result<usize, Refusal> {
    let mut size = 0;
    let f = flags.bytes();
    // SAFETY: the slice's own pointer and length.
    let number = unsafe {
        sys::tsiv_twobit_record_size(
            f.as_ptr(),
            f.len(),
            flags.offset().0,
            flags.len().0,
            &mut size,
        )
    };
    Refusal::check(number).map(|()| size)
}

/// Judges a whole file; the number of its sequences.
///
/// Refused: `BadForm` for a file that is not sound. The n N blocks of a record take one pass where they rise, or fall; in no order they
/// take up to n (n - 1) / 2 comparisons, for each entry that names the record and does not follow one that does: bound the size of files
/// that come from strangers.
pub fn check(file: &[u8]) -> Result<usize, Refusal> {
    let mut count = 0;
    // SAFETY: the slice's own pointer and length, as below.
    let number = unsafe { sys::tsiv_twobit_check(file.as_ptr(), file.len(), &mut count) };
    Refusal::check(number).map(|()| count)
}

/// An entry of a file's index: its number, and the byte at which it stands. Any numbers may stand here; those that name no entry are
/// refused by [`entry`].
#[derive(Clone, Copy, Debug, PartialEq, Eq)]
pub struct Cursor {
    /// Counted from 0.
    pub number: usize,
    /// Where it begins.
    pub at: usize,
}

/// What an entry of the index says.
#[derive(Clone, Copy, Debug, PartialEq, Eq)]
pub struct Entry<'a> {
    /// The name, a part of the file.
    pub name: &'a [u8],
    /// The byte at which the record stands.
    pub offset: usize,
}

/// The first entry of a file whose header is right. Refused: `BadForm` for another; of the rest nothing is looked at.
pub fn first(file: &[u8]) -> Result<Cursor, Refusal> {
    let (mut number, mut at) = (0, 0);
    // SAFETY: as in `check`.
    let no = unsafe { sys::tsiv_twobit_first(file.as_ptr(), file.len(), &mut number, &mut at) };
    Refusal::check(no).map(|()| Cursor { number, at })
}

/// The entry at a cursor, and the next cursor.
///
/// Refused: `BadForm` for a header that is not right; then `BadRange` behind the last entry; then `BadForm` for an entry that does not
/// end within the file, or whose record would stand outside it.
pub fn entry(file: &[u8], cursor: Cursor) -> Result<(Entry<'_>, Cursor), Refusal> {
    let Cursor { mut number, mut at } = cursor;
    let (mut name, mut size, mut offset) = (0, 0, 0);
    // SAFETY: as in `check`.
    let no = unsafe {
        sys::tsiv_twobit_entry(
            file.as_ptr(),
            file.len(),
            &mut number,
            &mut at,
            &mut name,
            &mut size,
            &mut offset,
        )
    };
    Refusal::check(no).map(|()| {
        let name = &file[name..name + size];
        (Entry { name, offset }, Cursor { number, at })
    })
}

/// What a record says of itself.
#[derive(Clone, Copy, Debug, PartialEq, Eq)]
pub struct Info {
    /// The length of the sequence: [`bases::room`] and [`flags::room`] of it are the room that [`record`] wants.
    pub len: Chars,
    /// The number of its N blocks.
    pub blocks: usize,
    /// The number of its mask blocks.
    pub masks: usize,
}

/// What the record at a byte of a file says of itself, so that room can be made for it.
///
/// Refused: `BadForm` for a header that is not right or a record that is not sound. N blocks are compared as in [`check`], once.
pub fn record_info(file: &[u8], offset: usize) -> Result<Info, Refusal> {
    let (mut len, mut blocks, mut masks) = (0, 0, 0);
    // SAFETY: as in `check`.
    let number = unsafe {
        sys::tsiv_twobit_record_info(
            file.as_ptr(),
            file.len(),
            offset,
            &mut len,
            &mut blocks,
            &mut masks,
        )
    };
    Refusal::check(number).map(|()| Info {
        len: Chars(len),
        blocks,
        masks,
    })
}

/// What a record held.
#[derive(Clone, Copy, Debug, PartialEq, Eq)]
pub struct Read {
    /// The length of both stores.
    pub len: Chars,
    /// The number of its mask blocks.
    pub masks: usize,
}

/// Fills two buffers as stores with the sequence of the record at a byte of a file: code 3 and a set flag under an N block, else the
/// base and a clear flag; later bytes stay. [`record_info`] tells the length.
///
/// Refused: `TooLong` for a buffer of more than 2^28 bytes; `BadForm` for a header that is not right or a record that is not sound;
/// `NoRoom` for buffers under [`bases::room`] and [`flags::room`] of the length.
pub fn record(
    file: &[u8],
    offset: usize,
    bases: &mut [u8],
    flags: &mut [u8],
) -> Result<Read, Refusal> {
    let (mut len, mut masks) = (0, 0);
    // SAFETY: the slices' own pointers and lengths; the three are borrowed apart.
    let number = unsafe {
        sys::tsiv_twobit_record(
            file.as_ptr(),
            file.len(),
            offset,
            bases.as_mut_ptr(),
            bases.len(),
            flags.as_mut_ptr(),
            flags.len(),
            &mut len,
            &mut masks,
        )
    };
    Refusal::check(number).map(|()| Read {
        len: Chars(len),
        masks,
    })
}
