//! Threads that end before what they borrow.
pub use super::rt::Threads;
use std::io;
use std::num::NonZeroUsize;
use std::sync::mpsc::{Receiver, sync_channel};
pub use std::thread::{Scope, yield_now};

/// The processors that this process may use.
pub fn available_parallelism<R>(_: &R) -> io::Result<NonZeroUsize> {
    std::thread::available_parallelism()
}

/// What a thread promises of its result.
pub trait Promise<T> {}

/// A thread that was started. Its result comes over a channel, so that no lifetime is named.
pub struct PromisedHandle<T, P> {
    result: Receiver<T>,
    _promise: P,
}

impl<T, P> PromisedHandle<T, P> {
    pub fn join<R>(self, _: &R) -> T { self.result.recv().expect("a thread panicked") }
}

pub trait ScopeExt<'s> {
    /// Starts a thread, if the system has one.
    fn spawn_with<T, P, F>(&'s self, promise: P, work: F) -> io::Result<PromisedHandle<T, P>>
    where
        T: Send + 's,
        F: FnOnce() -> T + Send + 's;
}

impl<'s, 'e> ScopeExt<'s> for Scope<'s, 'e> {
    fn spawn_with<T, P, F>(&'s self, promise: P, work: F) -> io::Result<PromisedHandle<T, P>>
    where
        T: Send + 's,
        F: FnOnce() -> T + Send + 's,
    {
        let (sender, result) = sync_channel(1);
        std::thread::Builder::new().spawn_scoped(self, move || {
            let _ = sender.send(work());
        })?;
        Ok(PromisedHandle { result, _promise: promise })
    }
}

/// What a scope borrows, for contracts only.
pub fn scope_env() {}

pub fn scope<'e, R, F, T>(_: (), _: &'e R, work: F) -> T
where
    F: for<'s> FnOnce(&'s Scope<'s, 'e>) -> T,
{
    std::thread::scope(work)
}

/// Two calls at once, the first on a thread of its own.
pub fn join<R, A: Send, B>(
    _: &R,
    first: impl FnOnce() -> A + Send,
    second: impl FnOnce() -> B,
) -> (A, B) {
    std::thread::scope(|scope| {
        let started = scope.spawn(first);
        let second = second();
        (started.join().expect("a thread panicked"), second)
    })
}
