//! Letters and codes, one at a time. RNA writes U, which counts as T:
//!
//! ```
//! use tsivelaro::{letters, Refusal};
//!
//! assert_eq!(letters::pack_char(b'U'), letters::pack_char(b'T'));
//! assert_eq!([b'u', b't', b'N'].map(letters::char_is_ambiguous), [0, 0, 1]);
//! assert_eq!(letters::unpack_base(letters::pack_char(b'u')?), Ok(b'T'));
//! assert_eq!(letters::complement_char(b'U'), Err(Refusal::BadLetter));
//! # Ok::<(), Refusal>(())
//! ```

use crate::{sys, Refusal};

type Call = unsafe extern "C" fn(u8, &mut u8) -> u32;

fn symbol(call: Call, byte: u8) -> Result<u8, Refusal> {
    let mut to = 0;
    // SAFETY: the number behind the pointer is ours.
    Refusal::check(unsafe { call(byte, &mut to) }).map(|()| to)
}

/// The code of one of ACGTUacgtu. Refused: `BadLetter` for any other byte.
pub fn pack_char(byte: u8) -> Result<u8, Refusal> {
    symbol(sys::tsiv_pack_char, byte)
}

/// The code that packing gives any byte, (byte / 2) mod 4; N gives 3.
pub fn pack_char_lossy(byte: u8) -> u8 {
    // SAFETY: it takes a number.
    unsafe { sys::tsiv_pack_char_lossy(byte) }
}

/// 0 for one of ACGTUacgtu, 1 for every other byte.
pub fn char_is_ambiguous(byte: u8) -> u8 {
    // SAFETY: it takes a number.
    unsafe { sys::tsiv_char_is_ambiguous(byte) }
}

/// The capital letter of a code. Refused: `BadLetter` for a code above 3.
pub fn unpack_base(code: u8) -> Result<u8, Refusal> {
    symbol(sys::tsiv_unpack_base, code)
}

/// The capital letter that pairs with A, C, G or T. Refused: `BadLetter` for any other byte, U among them.
pub fn complement_char(byte: u8) -> Result<u8, Refusal> {
    symbol(sys::tsiv_complement_char, byte)
}

/// The code of the base that pairs with a base. Refused: `BadLetter` for a code above 3.
pub fn complement_base(code: u8) -> Result<u8, Refusal> {
    symbol(sys::tsiv_complement_base, code)
}
