//! The calls of items on one thread, each by itself, in a memory of few items and in one of many.
use super::{get_and_release, next_key, open_one, set_keys, show, time, Memory, PAGE, PER_PAGE};
use std::time::Duration;

const OPERATIONS: u64 = 500_000;
const FEW: u64 = 1_000;
const BATCH: u64 = 256;
const BATCHES: u64 = 1_000;
const EVICTIONS: u64 = 1_000;

/// Does the work for keys below the count, over and over.
fn time_each(count: u64, mut work: impl FnMut(u64)) -> Duration {
    let mut key = 0;
    time(|| {
        for _ in 0..OPERATIONS {
            work(key);
            key = next_key(key, count);
        }
    })
}

fn show_each(name: &str, live: u64, work: impl FnMut(u64)) {
    show(name, live, time_each(live, work), OPERATIONS);
}

fn show_references<M: Memory>(memory: &M, hand: &mut M::Hand, live: u64) {
    show_each("get+release", live, |key| assert!(get_and_release(memory, hand, key)));
    let took = time_each(FEW, |key| assert!(get_and_release(memory, hand, key)));
    show("get+release-few", live, took, OPERATIONS);
    show_each("try_get+release", live, |key| {
        let item = memory.try_get(hand, key).unwrap();
        memory.release(hand, item);
    });
    show_each("get+read+release", live, |key| {
        let item = memory.get(hand, key).unwrap();
        let length = memory.read(&item);
        memory.release(hand, item);
        assert_eq!(length, 3);
    });
    let item = memory.get(hand, 0).unwrap();
    show_each("read", live, |_| assert_eq!(memory.read(&item), 3));
    memory.release(hand, item);
}

fn hint_of<M: Memory>(memory: &M, hand: &mut M::Hand, key: u64) -> M::Hint {
    let item = memory.get(hand, key).unwrap();
    let hint = memory.hint(&item);
    memory.release(hand, item);
    hint
}

fn show_hints<M: Memory>(memory: &M, hand: &mut M::Hand, live: u64) {
    let hints: Vec<M::Hint> = (0..live).map(|key| hint_of(memory, hand, key)).collect();
    show_each("again+release", live, |key| {
        let item = memory.again(hand, hints[key as usize]).unwrap();
        memory.release(hand, item);
    });
}

fn show_batches<M: Memory>(memory: &M, hand: &mut M::Hand, live: u64) {
    let (mut sets, mut deletes) = (Duration::ZERO, Duration::ZERO);
    for _ in 0..BATCHES {
        sets += time(|| set_keys(memory, hand, live, BATCH));
        deletes += time(|| (live..live + BATCH).for_each(|key| assert!(memory.delete(hand, key))));
        memory.sweep(1);
    }
    show("set", live, sets, BATCHES * BATCH);
    show("delete", live, deletes, BATCHES * BATCH);
}

fn show_evictions<M: Memory>(memory: &M, hand: &mut M::Hand, live: u64, room: u64) {
    set_keys(memory, hand, live, room - live);
    let took = time(|| set_keys(memory, hand, room, EVICTIONS));
    show("set+evict", live, took, EVICTIONS);
    assert_eq!(memory.evicted(1), EVICTIONS);
}

pub fn run<M: Memory>() {
    for (live, pages) in [(1_000, 5), (16_000, 64)] {
        let (memory, mut hand) = open_one::<M>(PAGE, pages);
        let hand = &mut hand;
        set_keys(&memory, hand, 0, live);
        show_references(&memory, hand, live);
        show_hints(&memory, hand, live);
        show_batches(&memory, hand, live);
        show_evictions(&memory, hand, live, pages * PER_PAGE);
    }
}
