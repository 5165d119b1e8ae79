//! Calls in a full memory of one class whose lists aren't young: ten rounds of deletes, overwrites and touches in drawn order are behind it.
use super::numbers::Numbers;
use super::{get_and_release, next_key, open_one, show, time, Memory, PAGE, PER_PAGE};

const SIZES: [u64; 3] = [1_024, 4_096, 16_384];
const ROUNDS: u64 = 10;
const OPERATIONS: u64 = 6_000;

/// So many are deleted before the first of them is stored again.
const AT_ONCE: [u64; 4] = [1, 2, 3, 100];

fn store<M: Memory>(memory: &M, hand: &mut M::Hand, key: u64) {
    assert!(memory.set(hand, key, &[key, key, key]));
}

fn set_missing<M: Memory>(memory: &M, hand: &mut M::Hand, room: u64) {
    for key in 0..room {
        if !get_and_release(memory, hand, key) {
            store(memory, hand, key);
        }
    }
}

fn churn<M: Memory>(memory: &M, hand: &mut M::Hand, numbers: &mut Numbers, room: u64) {
    for _ in 0..room {
        let key = numbers.below(room);
        match numbers.below(3) {
            0 => _ = memory.delete(hand, key),
            1 => store(memory, hand, key),
            _ => _ = memory.touch(hand, key),
        }
    }
}

/// Deletes so many keys, and stores them again: from one key on by strides.
fn delete_and_set<M: Memory>(memory: &M, hand: &mut M::Hand, first: u64, count: u64, room: u64) {
    let mut key = first;
    for _ in 0..count {
        memory.delete(hand, key);
        key = next_key(key, room);
    }
    key = first;
    for _ in 0..count {
        store(memory, hand, key);
        key = next_key(key, room);
    }
}

fn show_pairs<M: Memory>(memory: &M, hand: &mut M::Hand, numbers: &mut Numbers, room: u64) {
    for count in AT_ONCE {
        let took = time(|| {
            for _ in 0..OPERATIONS / count {
                delete_and_set(memory, hand, numbers.below(room), count, room);
            }
        });
        show(&format!("delete+set-{count}"), room, took, OPERATIONS);
        set_missing(memory, hand, room);
    }
}

fn show_size<M: Memory>(room: u64) {
    let (memory, mut hand) = open_one::<M>(PAGE, room / PER_PAGE);
    let (memory, hand, mut numbers) = (&memory, &mut hand, Numbers::new(room));
    set_missing(memory, hand, room);
    let took = time(|| (0..ROUNDS).for_each(|_| churn(memory, hand, &mut numbers, room)));
    show("churn", room, took, ROUNDS * room);
    set_missing(memory, hand, room);
    let took = time(|| (0..OPERATIONS).for_each(|_| _ = memory.touch(hand, numbers.below(room))));
    show("touch", room, took, OPERATIONS);
    let took = time(|| (0..OPERATIONS).for_each(|_| store(memory, hand, numbers.below(room))));
    show("overwrite", room, took, OPERATIONS);
    set_missing(memory, hand, room);
    show_pairs(memory, hand, &mut numbers, room);
    let took = time(|| (0..OPERATIONS).for_each(|place| store(memory, hand, room + place)));
    show("evict", room, took, OPERATIONS);
}

pub fn run<M: Memory>() {
    SIZES.into_iter().for_each(show_size::<M>);
}
