//! What a program asks a system for, and what a test returns.

pub mod time {
    use std::io;
    pub use std::time::Duration;
    pub struct Instant(std::time::Instant);
    impl Instant {
        pub fn now<R>(_: &R) -> io::Result<Instant> { Ok(Instant(std::time::Instant::now())) }
        pub fn elapsed<R>(&self, _: &R) -> io::Result<Duration> { Ok(self.0.elapsed()) }
    }
}

pub mod env {
    use super::super::memory::{Refusable, String};
    use std::io;
    use std::vec::{IntoIter, Vec};
    pub type Args = IntoIter<String>;
    /// The words of the command line. One that is not UTF-8 is an error of kind `InvalidData`.
    pub fn args<R>(_: &R) -> io::Result<Args> {
        let text = |word: std::ffi::OsString| word.into_string().map(Refusable);
        let words: Result<Vec<_>, _> = std::env::args_os().map(text).collect();
        words.map(Vec::into_iter).map_err(|_| io::ErrorKind::InvalidData.into())
    }
}

/// Of files a program asks only whether a standard stream is a terminal, one of Linux's devices.
/// Rust knows it on every system.
pub mod fs {
    use std::io::{self, IsTerminal};
    pub struct Metadata(bool);
    pub use {Metadata as FileTypeExt, Metadata as MetadataExt};
    impl Metadata {
        pub fn file_type(&self) -> &Metadata { self }
        pub fn rdev(&self) -> u64 { 4 << 8 }
        pub fn is_char_device(&self) -> bool { self.0 }
    }
    pub fn metadata<R>(_: &R, path: &str) -> io::Result<Metadata> {
        match path {
            "/proc/self/fd/0" => Ok(Metadata(io::stdin().is_terminal())),
            "/proc/self/fd/2" => Ok(Metadata(io::stderr().is_terminal())),
            _ => Err(io::ErrorKind::NotFound.into()),
        }
    }
}

pub mod os {
    pub use super::super::system as unix;
}

pub mod process {
    pub use super::super::rt::Abort;
    /// The status that a program ends with.
    pub struct ExitCode(pub i32);
    impl ExitCode {
        pub const SUCCESS: ExitCode = ExitCode(0);
    }
    impl From<u8> for ExitCode {
        fn from(status: u8) -> Self { ExitCode(status.into()) }
    }
}

pub mod test {
    use std::{boxed::Box, error::Error};
    /// Why a test failed that used `?`.
    #[derive(Debug)]
    pub struct Fail(#[allow(dead_code)] Box<dyn Error>);
    impl Fail {
        pub fn new(why: &str) -> Fail { why.into() }
    }
    impl<E: Into<Box<dyn Error>>> From<E> for Fail {
        fn from(error: E) -> Fail { Fail(error.into()) }
    }
}
