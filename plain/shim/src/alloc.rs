//! The allocator, and what a refused request returns.

/// The one allocator, that of Rust.
#[derive(Clone, Copy, Debug)]
pub struct Global;

/// Memory was refused.
#[derive(Clone, Copy, Debug, PartialEq, Eq)]
pub struct AllocError;

impl core::fmt::Display for AllocError {
    fn fmt(&self, f: &mut core::fmt::Formatter<'_>) -> core::fmt::Result {
        f.write_str("memory refused")
    }
}

impl core::error::Error for AllocError {}

#[cfg(feature = "program")]
impl From<AllocError> for std::io::Error {
    fn from(_: AllocError) -> Self { std::io::ErrorKind::OutOfMemory.into() }
}
