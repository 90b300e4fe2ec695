//! The runtime: who holds it may read, print, wait, and look at files and the clock.
use super::alloc::Global;
use std::fmt::Arguments;
use std::io::{self, Read, Write};

pub struct HostRuntime;

/// The runtime, for `main` and for tests.
pub fn host() -> HostRuntime {
    // A write into a pipe that nobody reads is an error, as in Rattle, and does not end the process.
    #[cfg(unix)]
    {
        const SIGPIPE: i32 = 13;
        const SIG_IGN: usize = 1;
        unsafe extern "C" {
            fn signal(number: i32, what: usize) -> usize;
        }
        // SAFETY: no handler is installed.
        unsafe { signal(SIGPIPE, SIG_IGN) };
    }
    HostRuntime
}

/// A standard stream without a buffer of Rust's, so that the caller sees every failure. Rust's own
/// takes a closed stream for an empty one.
#[cfg(unix)]
fn stream(number: i32) -> &'static std::fs::File {
    use std::os::fd::FromRawFd;
    // SAFETY: the file is the process's own, and it is never closed.
    std::boxed::Box::leak(std::boxed::Box::new(unsafe { FromRawFd::from_raw_fd(number) }))
}

impl HostRuntime {
    pub fn alloc(&self) -> Global { Global }
    #[cfg(unix)]
    pub fn reader(&self) -> impl Read + use<> { stream(0) }
    #[cfg(not(unix))]
    pub fn reader(&self) -> impl Read + use<> { io::stdin() }
    #[cfg(unix)]
    pub fn stdout(&self) -> impl Write + use<> { stream(1) }
    #[cfg(not(unix))]
    pub fn stdout(&self) -> impl Write + use<> { io::stdout() }
}

/// What a call may do that has the runtime.
macro_rules! leaves {
    ($($leave:ident)*) => { $(pub trait $leave {} impl $leave for HostRuntime {})* };
}
leaves! { Abort Clock Eprint Files Print Threads }

pub fn print<R: ?Sized>(_: &R, text: Arguments<'_>) -> io::Result<()> {
    let mut out = io::stdout();
    out.write_fmt(text)?;
    out.flush()
}
