//! Sets and gets before a mover begins, and beside it as it moves pages to and fro without pause. Each call is timed by itself, and has a line
//! of its own.
use super::numbers::Numbers;
use super::{get_and_release, set_keys, show, Memory, Turn, PAGE, PER_PAGE};
use std::thread;
use std::time::Instant;

const PAGES: u64 = 64;
const CALLS: usize = 20_000;

/// Pages move from the class of all items to one that has none, and come back.
const FULL: usize = 1;
const EMPTY: usize = 2;

/// As many items as fit into the pages but for two: one of the empty class, and one of that of the sign.
const KEYS: u64 = (PAGES - 2) * PER_PAGE;

/// The mover goes on while this key has an item. It has a class of its own, so that nothing evicts it and its page doesn't move.
const SIGN: u64 = 1 << 40;
const SIGN_WORDS: [u64; 20] = [0; 20];

/// Of eight words, which are the other class's.
const OTHER: u64 = SIGN + 1;
const OTHER_WORDS: [u64; 8] = [0; 8];

fn prepare<M: Memory>(memory: &M, hand: &mut M::Hand) {
    assert!(memory.set(hand, SIGN, &SIGN_WORDS));
    assert!(memory.set(hand, OTHER, &OTHER_WORDS));
    assert!(memory.delete(hand, OTHER));
    set_keys(memory, hand, 0, KEYS);
}

/// Moves a page, and says whether it came.
fn move_page<M: Memory>(memory: &M, hand: &mut M::Hand, from: usize, to: usize) -> bool {
    if !memory.reassign(hand, from, to) {
        return false;
    }
    loop {
        match memory.turn(hand) {
            Turn::Idle => return false,
            Turn::Went(_) => {}
            Turn::Finished(_) => return true,
        }
    }
}

/// Moves pages until the sign is gone, and says how many.
fn move_pages<M: Memory>(memory: &M, hand: &mut M::Hand) -> u64 {
    let mut pages = 0;
    while get_and_release(memory, hand, SIGN) {
        assert!(move_page(memory, hand, FULL, EMPTY));
        assert!(move_page(memory, hand, EMPTY, FULL));
        pages += 2;
    }
    pages
}

/// What each set and each get took, in nanoseconds.
fn time_calls<M: Memory>(memory: &M, hand: &mut M::Hand) -> (Vec<u128>, Vec<u128>) {
    let mut numbers = Numbers::new(1);
    let (mut sets, mut gets) = (Vec::with_capacity(CALLS), Vec::with_capacity(CALLS));
    for _ in 0..CALLS {
        let key = numbers.below(KEYS);
        let started = Instant::now();
        memory.set(hand, key, &[key, key, key]);
        sets.push(started.elapsed().as_nanos());
        let key = numbers.below(KEYS);
        let started = Instant::now();
        get_and_release(memory, hand, key);
        gets.push(started.elapsed().as_nanos());
    }
    (sets, gets)
}

pub fn run<M: Memory>() {
    let (memory, mut hands) = M::open(PAGE, PAGES, 2);
    let (memory, mut mover, mut worker) = (&memory, hands.remove(1), hands.remove(0));
    prepare(memory, &mut worker);
    let (sets_before, gets_before) = time_calls(memory, &mut worker);
    let started = Instant::now();
    let (pages, (sets, gets)) = thread::scope(|scope| {
        let moving = scope.spawn(|| move_pages(memory, &mut mover));
        let times = time_calls(memory, &mut worker);
        assert!(memory.delete(&mut worker, SIGN));
        (moving.join().unwrap(), times)
    });
    show("move-beside", KEYS, started.elapsed(), pages);
    for (name, times) in [("set-before", sets_before), ("get-before", gets_before), ("set-beside", sets), ("get-beside", gets)] {
        times.iter().for_each(|took| println!("{name}-{KEYS} {took} 1"));
    }
}
