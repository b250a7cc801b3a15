//! The stored form, edition 1.

use crate::{bases, flags, sys, Chars, Refusal};

/// The bytes of the form of n characters, n up to 2^29.
pub fn room(n: Chars) -> usize {
    // SAFETY: it takes a number.
    unsafe { sys::tsiv_form_room(n.0) }
}

/// Writes the form of two views to the front of a buffer, where later bytes stay; its bytes.
///
/// Refused: `TooLong` and `BadView` of either view; `BadRange` for unequal lengths, or more than 2^29; `NoRoom` for a buffer under
/// [`room`] of the length.
pub fn write(
    bases: bases::View<'_>,
    flags: flags::View<'_>,
    out: &mut [u8],
) -> Result<usize, Refusal> {
    let mut written = 0;
    let (b, f) = (bases.bytes(), flags.bytes());
    // SAFETY: the slices' own pointers and lengths; `out` is borrowed apart from both.
    let number = unsafe {
        sys::tsiv_form_write(
            b.as_ptr(),
            b.len(),
            bases.offset().0,
            bases.len().0,
            f.as_ptr(),
            f.len(),
            flags.offset().0,
            flags.len().0,
            out.as_mut_ptr(),
            out.len(),
            &mut written,
        )
    };
    Refusal::check(number).map(|()| written)
}

/// Fills two buffers as stores of the form's length, which it gives; later bytes stay. `form.len() + 48` bytes for each suffice.
///
/// Refused: `TooLong` for a form or a buffer of more than 2^28 bytes; `BadForm` for bytes that are no form; `NoRoom` for buffers under
/// [`bases::room`] and [`flags::room`] of the length.
pub fn read(form: &[u8], bases: &mut [u8], flags: &mut [u8]) -> Result<Chars, Refusal> {
    let mut len = 0;
    // SAFETY: the slices' own pointers and lengths; the three are borrowed apart.
    let number = unsafe {
        sys::tsiv_form_read(
            form.as_ptr(),
            form.len(),
            bases.as_mut_ptr(),
            bases.len(),
            flags.as_mut_ptr(),
            flags.len(),
            &mut len,
        )
    };
    Refusal::check(number).map(|()| Chars(len))
}
