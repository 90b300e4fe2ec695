//! Waits, and words of memory that a thread can sleep on.
use super::rt::HostRuntime;
use std::sync::{Condvar, Mutex, MutexGuard};
use std::time::Duration;

pub use std::sync::{Arc, OnceLock, atomic};
use atomic::{AtomicU64, Ordering};

/// A call that has it may wait.
pub trait Wait {
    fn forever(&self) -> std::iter::Repeat<()> { std::iter::repeat(()) }
}

impl Wait for HostRuntime {}

/// Where threads sleep: the address of a word chooses one of these, on every system alike.
static PLACES: [(Mutex<()>, Condvar); 64] = [const { (Mutex::new(()), Condvar::new()) }; 64];

/// The place of a word, with its lock taken. Words are padded to 128 bytes.
fn place(word: &AtomicU64) -> (MutexGuard<'static, ()>, &'static Condvar) {
    let (lock, sign) = &PLACES[(std::ptr::from_ref(word) as usize >> 7) % PLACES.len()];
    (lock.lock().unwrap_or_else(|poisoned| poisoned.into_inner()), sign)
}

pub trait Parking {
    /// Sleeps if the low half of the word is `expected`, until it is woken or the time is over.
    fn park_timeout<R>(&self, rt: &R, expected: u32, time: Duration);
    /// Wakes a thread that sleeps on this word, and maybe others, which look again.
    fn wake_one(&self);
}

impl Parking for AtomicU64 {
    fn park_timeout<R>(&self, _: &R, expected: u32, time: Duration) {
        let (guard, sign) = place(self);
        // Under the lock, so that a wake comes either before this look or after the sleep begins.
        if self.load(Ordering::SeqCst) as u32 == expected {
            drop(sign.wait_timeout(guard, time));
        }
    }
    fn wake_one(&self) {
        let (guard, sign) = place(self);
        drop(guard);
        sign.notify_all();
    }
}
