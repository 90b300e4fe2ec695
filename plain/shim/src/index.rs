//! What is proved in the sources and trusted here, unless it is checked.
use core::ops::{Index, IndexMut};
use core::slice::SliceIndex;

/// Whether indices and what is never reached are looked at: in all builds but a release of a text
/// that is proved.
pub const CHECKED: bool = cfg!(any(not(feature = "trusting"), debug_assertions));

/// An index that is proved to be within its slice.
pub struct At<I>(pub I);

impl<T, I: SliceIndex<[T]>> Index<At<I>> for [T] {
    type Output = I::Output;
    #[inline(always)]
    #[track_caller]
    fn index(&self, at: At<I>) -> &I::Output {
        if CHECKED {
            return &self[at.0];
        }
        // SAFETY: proved in the Rattle source.
        unsafe { self.get_unchecked(at.0) }
    }
}

impl<T, I: SliceIndex<[T]>> IndexMut<At<I>> for [T] {
    #[inline(always)]
    #[track_caller]
    fn index_mut(&mut self, at: At<I>) -> &mut I::Output {
        if CHECKED {
            return &mut self[at.0];
        }
        // SAFETY: proved in the Rattle source.
        unsafe { self.get_unchecked_mut(at.0) }
    }
}

impl<I: SliceIndex<str>> Index<At<I>> for str {
    type Output = I::Output;
    fn index(&self, at: At<I>) -> &I::Output { &self[at.0] }
}

/// What is proved not to be reached.
#[inline(always)]
#[track_caller]
pub fn unreached() -> ! {
    if CHECKED {
        unreachable!();
    }
    // SAFETY: proved in the Rattle source.
    unsafe { core::hint::unreachable_unchecked() }
}
