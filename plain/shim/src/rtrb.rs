//! A ring from one thread to one other, with the names of `rtrb` that the sources use. Debian has
//! no package of the real one.
use super::alloc::{AllocError, Global};
use std::boxed::Box;
use std::cell::UnsafeCell;
use std::mem::MaybeUninit;
use std::sync::Arc;
use std::sync::atomic::{AtomicUsize, Ordering};
use std::vec::Vec;

/// The place up to which an end may go, on a cache line of its own.
#[repr(align(128))]
struct Limit(AtomicUsize);

/// Places count on without end, and item k lies in slot k modulo the capacity.
struct Ring<T> {
    limits: [Limit; 2], // of the consumer and of the producer, stored by the other one
    slots: Box<[UnsafeCell<MaybeUninit<T>>]>,
}

// SAFETY: a slot is touched by one end at a time: it is the consumer's from a store of its limit on,
// and the producer's from a store of that one's limit on.
unsafe impl<T: Send> Sync for Ring<T> {}

#[derive(Debug, PartialEq, Eq)]
pub enum ChunkError {
    TooFewSlots(usize),
}

/// An end, with its place and its limit as it was last seen.
pub struct End<T, const PUSHES: bool> {
    ring: Arc<Ring<T>>,
    place: usize,
    limit: usize,
}

pub type Producer<T> = End<T, true>;
pub type Consumer<T> = End<T, false>;

pub struct RingBuffer;

impl RingBuffer {
    /// The two ends of a ring. Items are `Copy`, so none needs to be dropped.
    pub fn new<T: Copy>(
        _: Global,
        capacity: usize,
    ) -> Result<(Producer<T>, Consumer<T>), AllocError> {
        let mut slots = Vec::new();
        slots.try_reserve_exact(capacity).map_err(|_| AllocError)?;
        slots.resize_with(capacity, || UnsafeCell::new(MaybeUninit::uninit()));
        let limits = [0, capacity].map(|limit| Limit(AtomicUsize::new(limit)));
        let ring = Arc::new(Ring { limits, slots: slots.into_boxed_slice() });
        let producer = End { ring: Arc::clone(&ring), place: 0, limit: capacity };
        Ok((producer, End { ring, place: 0, limit: 0 }))
    }
}

impl<T: Copy, const PUSHES: bool> End<T, PUSHES> {
    /// How many items fit or lie here, as far as was seen.
    #[inline(always)]
    pub fn cached_slots(&self) -> usize { self.limit - self.place }
    /// How many items fit or lie here. Looks at what the other end stored.
    #[inline(always)]
    pub fn slots(&mut self) -> usize {
        self.limit = self.ring.limits[usize::from(PUSHES)].0.load(Ordering::Acquire);
        self.cached_slots()
    }
    /// The same as `slots`. The other end says in a proof that the two are one ring's.
    pub fn slots_beside<const P: bool>(&mut self, _: &mut End<T, P>) -> usize { self.slots() }
    /// Has n items copied, by a slot, the first item's number and how many, or none. They are two
    /// parts if they go round the ring's end.
    fn pass(
        &mut self,
        n: usize,
        mut copy: impl FnMut(*mut T, usize, usize),
    ) -> Result<(), ChunkError> {
        if self.cached_slots() < n && self.slots() < n {
            return Err(ChunkError::TooFewSlots(self.cached_slots()));
        }
        if n == 0 {
            return Ok(());
        }
        let capacity = self.ring.slots.len();
        let first = self.place % capacity;
        let before_end = n.min(capacity - first);
        let slots = self.ring.slots.as_ptr() as *mut T;
        copy(slots.wrapping_add(first), 0, before_end);
        copy(slots, before_end, n - before_end);
        self.place += n;
        let limit = if PUSHES { self.place } else { self.place + capacity };
        self.ring.limits[usize::from(!PUSHES)].0.store(limit, Ordering::Release);
        Ok(())
    }
}

impl<T: Copy> Producer<T> {
    /// Pushes all items, or none.
    pub fn push_entire_slice(&mut self, items: &[T]) -> Result<(), ChunkError> {
        // SAFETY: these slots are free, and only this end writes free slots.
        self.pass(items.len(), |slot, from, n| unsafe {
            slot.copy_from_nonoverlapping(items.as_ptr().add(from), n);
        })
    }
}

impl<T: Copy> Consumer<T> {
    /// Pops so many items, or none.
    pub fn pop_entire_slice(&mut self, out: &mut [T]) -> Result<(), ChunkError> {
        // SAFETY: these slots are full, and only this end reads full slots.
        self.pass(out.len(), |slot, from, n| unsafe {
            slot.copy_to_nonoverlapping(out.as_mut_ptr().add(from), n);
        })
    }
}
