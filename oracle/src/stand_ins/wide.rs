//! Stands in for the crate `wide`: vectors of lanes, all arithmetic lane by lane and wrapping.
//! The lane streams and flag windows rest on `u32x8`; packing flags in a build with AVX2 rests on `i8x32`.
//! `u16x8` only gives a type to a function that nothing calls. Inlined everywhere, as the crate's are.

#![allow(non_camel_case_types)]

use std::array::from_fn;
use std::ops::{AddAssign, BitAnd, BitAndAssign, BitXor, Shr, SubAssign};

#[derive(Clone, Copy, Default)]
#[repr(C, align(32))]
pub struct u32x8([u32; 8]);

impl u32x8 {
    pub const ZERO: Self = Self([0; 8]);

    #[inline(always)]
    pub const fn new(lanes: [u32; 8]) -> Self {
        Self(lanes)
    }

    #[inline(always)]
    pub fn splat(lane: u32) -> Self {
        Self([lane; 8])
    }

    #[inline(always)]
    pub fn as_array(&self) -> &[u32; 8] {
        &self.0
    }

    /// All bits set in the lanes where `self` is the greater, else none.
    #[inline(always)]
    pub fn simd_gt(self, other: Self) -> Self {
        self.zip(other, |a, b| if a > b { u32::MAX } else { 0 })
    }

    #[inline(always)]
    fn zip(self, other: Self, f: impl Fn(u32, u32) -> u32) -> Self {
        Self(from_fn(|lane| f(self.0[lane], other.0[lane])))
    }
}

impl BitAnd for u32x8 {
    type Output = Self;
    #[inline(always)]
    fn bitand(self, other: Self) -> Self {
        self.zip(other, |a, b| a & b)
    }
}

impl BitXor for u32x8 {
    type Output = Self;
    #[inline(always)]
    fn bitxor(self, other: Self) -> Self {
        self.zip(other, |a, b| a ^ b)
    }
}

impl Shr for u32x8 {
    type Output = Self;
    #[inline(always)]
    fn shr(self, other: Self) -> Self {
        self.zip(other, u32::wrapping_shr)
    }
}

impl BitAndAssign for u32x8 {
    #[inline(always)]
    fn bitand_assign(&mut self, other: Self) {
        *self = *self & other;
    }
}

impl AddAssign for u32x8 {
    #[inline(always)]
    fn add_assign(&mut self, other: Self) {
        *self = self.zip(other, u32::wrapping_add);
    }
}

impl SubAssign for u32x8 {
    #[inline(always)]
    fn sub_assign(&mut self, other: Self) {
        *self = self.zip(other, u32::wrapping_sub);
    }
}

#[derive(Clone, Copy)]
#[repr(C, align(16))]
pub struct u16x8([u16; 8]);

#[cfg(target_feature = "avx2")]
pub use flags::i8x32;

#[cfg(target_feature = "avx2")]
mod flags {
    use std::array::from_fn;
    use std::ops::BitAnd;

    #[derive(Clone, Copy)]
    #[repr(C, align(32))]
    pub struct i8x32([i8; 32]);

    impl i8x32 {
        #[inline(always)]
        pub fn splat(lane: i8) -> Self {
            Self([lane; 32])
        }

        /// All bits set in the lanes that are equal, else none.
        #[inline(always)]
        pub fn simd_eq(self, other: Self) -> Self {
            Self(from_fn(|lane| -((self.0[lane] == other.0[lane]) as i8)))
        }

        /// The sign bits, that of lane 0 lowest.
        #[inline(always)]
        pub fn to_bitmask(self) -> u32 {
            (0..32).fold(0, |mask, lane| mask | ((self.0[lane] < 0) as u32) << lane)
        }
    }

    impl BitAnd for i8x32 {
        type Output = Self;
        #[inline(always)]
        fn bitand(self, other: Self) -> Self {
            Self(from_fn(|lane| self.0[lane] & other.0[lane]))
        }
    }
}
