//! The vectors that the sources name. Rust's own are not stable.
pub mod prelude {
    use core::array::from_fn;
    /// Sixty-four bytes.
    #[allow(non_camel_case_types)]
    #[derive(Clone, Copy)]
    pub struct u8x64([u8; 64]);
    /// Sixty-four times yes, 1, or no, 0.
    pub struct Lanes([u8; 64]);
    impl u8x64 {
        #[inline(always)]
        pub fn from_array(bytes: [u8; 64]) -> Self { u8x64(bytes) }
        #[inline(always)]
        pub fn splat(byte: u8) -> Self { u8x64([byte; 64]) }
        #[inline(always)]
        pub fn simd_ne(self, other: u8x64) -> Lanes {
            Lanes(from_fn(|i| u8::from(self.0[i] != other.0[i])))
        }
    }
    impl core::ops::BitAnd for u8x64 {
        type Output = u8x64;
        #[inline(always)]
        fn bitand(self, other: u8x64) -> u8x64 { u8x64(from_fn(|i| self.0[i] & other.0[i])) }
    }
    pub use super::words::u64x4;
    impl Lanes {
        /// Bit i for lane i. The product brings the lowest bits of eight bytes together in the top one.
        #[inline(always)]
        pub fn to_bitmask(self) -> u64 {
            (0..8).fold(0, |mask, i| {
                let eight = u64::from_le_bytes(from_fn(|k| self.0[8 * i + k]));
                mask | (eight.wrapping_mul(0x0102_0408_1020_4080) >> 56) << (8 * i)
            })
        }
    }
}

// The vectors of a processor, because compilers take arrays of words apart where two ways join. SAFETY: a
// processor of the target has their instructions.
macro_rules! vectors {
    ($type:ty, $each:literal, $($name:ident: $call:path),*; $by:ident: $($shift:ident: $moved:path, $count:expr),*) => {
        pub type Vector = $type;
        pub const EACH: usize = $each;
        $(#[inline(always)]
        pub fn $name(a: Vector, b: Vector) -> Vector { unsafe { $call(a, b) } })*
        $(#[inline(always)]
        pub fn $shift(a: Vector, $by: u32) -> Vector { unsafe { $moved(a, $count) } })*
    };
}
#[cfg(target_feature = "avx2")]
mod vector {
    use core::arch::x86_64::*;
    vectors! {
        __m256i, 4, and: _mm256_and_si256, or: _mm256_or_si256, xor: _mm256_xor_si256;
        by: shl: _mm256_sll_epi64, _mm_cvtsi32_si128(by as i32), shr: _mm256_srl_epi64, _mm_cvtsi32_si128(by as i32)
    }
}
#[cfg(all(target_arch = "x86_64", not(target_feature = "avx2")))]
mod vector {
    use core::arch::x86_64::*;
    vectors! {
        __m128i, 2, and: _mm_and_si128, or: _mm_or_si128, xor: _mm_xor_si128;
        by: shl: _mm_sll_epi64, _mm_cvtsi32_si128(by as i32), shr: _mm_srl_epi64, _mm_cvtsi32_si128(by as i32)
    }
}
#[cfg(target_arch = "aarch64")]
mod vector {
    use core::arch::aarch64::*;
    vectors! {
        uint64x2_t, 2, and: vandq_u64, or: vorrq_u64, xor: veorq_u64;
        by: shl: vshlq_u64, vdupq_n_s64(i64::from(by)), shr: vshlq_u64, vdupq_n_s64(-i64::from(by))
    }
}
#[cfg(target_arch = "wasm32")]
mod vector {
    use core::arch::wasm32::*;
    vectors! {
        v128, 2, and: v128_and, or: v128_or, xor: v128_xor;
        by: shl: u64x2_shl, by, shr: u64x2_shr, by
    }
}
#[cfg(not(any(target_arch = "x86_64", target_arch = "aarch64", target_arch = "wasm32")))]
mod vector {
    use core::ops::{BitAnd, BitOr, BitXor, Shl, Shr};
    vectors! {
        u64, 1, and: BitAnd::bitand, or: BitOr::bitor, xor: BitXor::bitxor;
        by: shl: Shl::shl, by, shr: Shr::shr, by
    }
}

mod words {
    use super::vector::{EACH, Vector, and, or, shl, shr, xor};
    use core::array::from_fn;
    use core::mem::transmute;
    use core::ops::{BitAnd, BitOr, BitXor, Not, Shl, Shr};
    const PARTS: usize = 4 / EACH;
    /// Four words of 64 bits.
    #[allow(non_camel_case_types)]
    #[derive(Clone, Copy)]
    pub struct u64x4([Vector; PARTS]);
    impl u64x4 {
        // SAFETY of both: four words are the bits of these vectors.
        #[inline(always)]
        pub fn from_array(words: [u64; 4]) -> Self { u64x4(unsafe { transmute::<[u64; 4], [Vector; PARTS]>(words) }) }
        #[inline(always)]
        pub fn to_array(self) -> [u64; 4] { unsafe { transmute::<[Vector; PARTS], [u64; 4]>(self.0) } }
        #[inline(always)]
        pub fn splat(word: u64) -> Self { u64x4::from_array([word; 4]) }
        /// The first four words of a slice, which has at least four.
        #[inline(always)]
        pub fn from_slice(words: &[u64]) -> Self {
            // SAFETY: they are as long as the vectors, which may lie anywhere.
            u64x4(unsafe { words[..4].as_ptr().cast::<[Vector; PARTS]>().read_unaligned() })
        }
        /// Writes the first four words of a slice, which has at least four.
        #[inline(always)]
        pub fn copy_to_slice(self, words: &mut [u64]) {
            // SAFETY: as above.
            unsafe { words[..4].as_mut_ptr().cast::<[Vector; PARTS]>().write_unaligned(self.0) }
        }
        // Shifted by the low six bits of each lane, as Rust's own: by vectors if all are the same.
        #[inline(always)]
        fn shifted(self, by: u64x4, all: fn(Vector, u32) -> Vector, one: fn(u64, u32) -> u64) -> Self {
            let (words, by) = (self.to_array(), by.to_array().map(|by| by as u32 % 64));
            if by == [by[0]; 4] { return u64x4(from_fn(|i| all(self.0[i], by[0]))); }
            u64x4::from_array(from_fn(|i| one(words[i], by[i])))
        }
    }
    macro_rules! operators {
        ($($kind:ident $name:ident $call:ident;)*) => { $(impl $kind for u64x4 {
            type Output = u64x4;
            #[inline(always)]
            fn $name(self, other: u64x4) -> u64x4 { u64x4(from_fn(|i| $call(self.0[i], other.0[i]))) }
        })* };
    }
    operators! { BitAnd bitand and; BitOr bitor or; BitXor bitxor xor; }
    impl Shl for u64x4 {
        type Output = u64x4;
        #[inline(always)]
        fn shl(self, other: u64x4) -> u64x4 { self.shifted(other, |a, by| shl(a, by), |a, by| a << by) }
    }
    impl Shr for u64x4 {
        type Output = u64x4;
        #[inline(always)]
        fn shr(self, other: u64x4) -> u64x4 { self.shifted(other, |a, by| shr(a, by), |a, by| a >> by) }
    }
    impl Not for u64x4 {
        type Output = u64x4;
        #[inline(always)]
        fn not(self) -> u64x4 { self ^ u64x4::splat(u64::MAX) }
    }
}
