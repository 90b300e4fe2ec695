//! Slices as C passes them: a pointer and a length. The caller owes what `include/fhpgas.h` says.

pub unsafe fn slice<'a, T>(first: *const T, length: usize) -> &'a [T] {
    // SAFETY: the caller's. C may pass any pointer with a length of 0.
    if length == 0 { &[] } else { unsafe { core::slice::from_raw_parts(first, length) } }
}

pub unsafe fn slice_mut<'a, T>(first: *mut T, length: usize) -> &'a mut [T] {
    // SAFETY: the same.
    if length == 0 { &mut [] } else { unsafe { core::slice::from_raw_parts_mut(first, length) } }
}
