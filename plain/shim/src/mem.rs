//! Values that change by being replaced.
pub use core::mem::*;

/// Ends the process when it is dropped.
struct End;

impl Drop for End {
    fn drop(&mut self) { panic!("a panic while a value was replaced"); }
}

/// Puts what `change` makes of the value in its place, and returns what it returns beside. A panic
/// in `change` would leave the value twice, so it ends the process, by a panic within a panic.
#[inline(always)]
pub fn replace_with<T, X, R>(place: &mut T, with: X, change: impl FnOnce(T, X) -> (T, R)) -> R {
    let end = End;
    // SAFETY: the value is moved out, and another is moved in before anyone can look.
    let returned = unsafe {
        let (value, returned) = change(core::ptr::read(place), with);
        core::ptr::write(place, value);
        returned
    };
    forget(end);
    returned
}
