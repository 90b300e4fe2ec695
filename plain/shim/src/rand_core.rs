//! The names of the kit's `rand_core` over the real one.
pub use ::rand_core::{RngCore as Rng, SeedableRng};

pub mod utils {
    use ::rand_core::RngCore;
    /// A generator of words of one kind.
    pub trait NextWord<W> {
        fn next_word(&mut self) -> W;
    }
    impl<R: RngCore> NextWord<u32> for R {
        #[inline(always)]
        fn next_word(&mut self) -> u32 { self.next_u32() }
    }
    /// Two words of 32 bits, the low half first.
    #[inline(always)]
    pub fn next_u64_via_u32<R: RngCore>(rng: &mut R) -> u64 { rng.next_u64() }
}
