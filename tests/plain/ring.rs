//! Tries the ring of plain/shim, which stands for a crate that Debian has not: whole slices or none, the way round its end, two threads.
#![allow(dead_code)]

#[path = "../../plain/shim/src/alloc.rs"]
mod alloc;
#[path = "../../plain/shim/src/rtrb.rs"]
mod rtrb;

use alloc::Global;
use rtrb::{ChunkError, Consumer, Producer, RingBuffer};

const ITEMS: u32 = 200;

#[test]
fn whole_slices_or_none() {
    let (mut producer, mut consumer) = RingBuffer::new::<u32>(Global, 3).unwrap();
    assert_eq!(producer.push_entire_slice(&[1, 2, 3, 4]), Err(ChunkError::TooFewSlots(3)));
    assert_eq!(producer.push_entire_slice(&[1, 2]), Ok(()));
    assert_eq!(producer.push_entire_slice(&[3, 4]), Err(ChunkError::TooFewSlots(1)));
    let mut out = [0; 2];
    assert_eq!(consumer.pop_entire_slice(&mut [0; 3]), Err(ChunkError::TooFewSlots(2)));
    assert_eq!((consumer.pop_entire_slice(&mut out), out), (Ok(()), [1, 2]));
    assert_eq!((producer.slots(), consumer.slots()), (3, 0));
    assert_eq!(producer.push_entire_slice(&[5, 6, 7]), Ok(())); // round the end
    let mut out = [0; 3];
    assert_eq!((consumer.pop_entire_slice(&mut out), out), (Ok(()), [5, 6, 7]));
}

/// Two slices are under way when the places pass 2^32, the first of them in its first part.
#[test]
fn past_two_to_the_32_items() {
    const MANY: usize = (1 << 20) - 1;
    let (mut producer, mut consumer) = RingBuffer::new::<u8>(Global, 2 * MANY + 3).unwrap();
    let mut items = vec![0; MANY];
    let (mut first, mut rest) = (vec![0; 5000], vec![0; MANY - 5000]);
    let mut put = |round: usize, producer: &mut Producer<u8>| {
        [items[0], items[5000], items[MANY - 1]] = [0, 1, 2].map(|part| (3 * round + part) as u8);
        assert_eq!(producer.push_entire_slice(&items), Ok(()));
    };
    put(0, &mut producer);
    for round in 0..(1 << 12) + 3 {
        put(round + 1, &mut producer);
        assert_eq!(consumer.pop_entire_slice(&mut first), Ok(()));
        assert_eq!(consumer.pop_entire_slice(&mut rest), Ok(()));
        let came = [first[0], rest[0], rest[MANY - 5001]];
        assert_eq!(came, [0, 1, 2].map(|part| (3 * round + part) as u8), "slice {round}");
    }
}

/// Whether all items come, each once and in order, some at a time.
fn takes_all(mut consumer: Consumer<u32>, capacity: usize) {
    let mut next = 0;
    while next < ITEMS {
        let n = consumer.slots().min(1 + next as usize % capacity);
        let mut out = vec![0; n];
        assert_eq!(consumer.pop_entire_slice(&mut out), Ok(()));
        for item in out {
            assert_eq!(item, next);
            next += 1;
        }
        std::thread::yield_now();
    }
    assert_eq!(consumer.slots(), 0);
}

#[test]
fn two_threads() {
    for capacity in [1, 2, 3, 7, 64] {
        let (mut producer, consumer) = RingBuffer::new::<u32>(Global, capacity).unwrap();
        let taking = std::thread::spawn(move || takes_all(consumer, capacity));
        let mut next = 0;
        while next < ITEMS {
            let room = ITEMS.min(next + producer.slots() as u32);
            let items: Vec<u32> = (next..room).collect();
            assert_eq!(producer.push_entire_slice(&items), Ok(()));
            next = room;
            std::thread::yield_now();
        }
        taking.join().unwrap();
    }
}
