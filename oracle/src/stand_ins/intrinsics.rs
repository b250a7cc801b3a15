//! Stands in for the original's `intrinsics`: the transpose of eight vectors of eight lanes.
//! All lane streams rest on it.

use super::wide::u32x8;
use std::array::from_fn;

/// Lane `i` of vector `j` becomes lane `j` of vector `i`.
#[inline(always)]
pub fn transpose(rows: [u32x8; 8]) -> [u32x8; 8] {
    from_fn(|i| u32x8::new(from_fn(|j| rows[j].as_array()[i])))
}
