//! The same steps in plain Rust: a `Mutex` for the lock of the slabs, with its value in a box; and chunks that go out and come back as those of
//! the same work do, `plain_works.rs`, whose parts these are. Of the calls that stand on them nothing is used here.
#![allow(dead_code)]
#[path = "plain/ages.rs"]
mod ages;
#[path = "plain/arena.rs"]
mod arena;
#[path = "plain/chunks.rs"]
mod chunks;
#[path = "plain/header.rs"]
mod header;
#[path = "plain/hints.rs"]
mod hints;
#[path = "plain/locks.rs"]
mod locks;
#[path = "plain/rows.rs"]
mod rows;
#[path = "plain/slabs.rs"]
mod slabs;
#[path = "plain/stripe.rs"]
mod stripe;

use arena::Arena;
use rows::ChunkId;
use slabs::Slabs;
use std::hint::black_box;
use std::sync::atomic::Ordering::SeqCst;
use std::sync::Mutex;
use std::thread;
use std::time::Instant;

const OPERATIONS: u64 = 2_000_000;
const PAGES: u64 = 4;
const PAGE: u64 = 16_384;
const CLASS: usize = 0;

/// The lock of the slabs.
type Lock = Mutex<Box<Slabs>>;

fn show(name: &str, started: Instant, operations: u64) {
    println!("{name} {} {operations}", started.elapsed().as_nanos());
}

fn take_and_give(lock: &Lock) {
    for _ in 0..OPERATIONS {
        drop(black_box(lock.lock().unwrap()));
    }
}

fn try_and_give(lock: &Lock) {
    for _ in 0..OPERATIONS {
        drop(black_box(lock.try_lock().unwrap()));
    }
}

fn show_lock(lock: &Lock) {
    let started = Instant::now();
    take_and_give(lock);
    show("lock-1", started, OPERATIONS);
    let started = Instant::now();
    try_and_give(lock);
    show("try-1", started, OPERATIONS);
    for threads in [2, 4] {
        let started = Instant::now();
        thread::scope(|scope| {
            for _ in 1..threads {
                scope.spawn(|| take_and_give(lock));
            }
            take_and_give(lock);
        });
        show(&format!("lock-{threads}"), started, OPERATIONS * threads);
    }
}

/// A chunk goes out, is given up, and comes back.
fn go_round(arena: &Arena, slabs: &mut Slabs) {
    for _ in 0..OPERATIONS {
        let chunk = arena.pop(slabs, black_box(CLASS)).unwrap().unwrap();
        arena.give_up(chunk, 1);
        assert!(arena.put_back(slabs, chunk));
    }
}

fn fill_words(arena: &Arena, chunk: ChunkId) {
    let room = arena.room_of(CLASS);
    for turn in 0..OPERATIONS / 8 {
        for place in 0..black_box(room) {
            arena.word(chunk, room, place).store(turn, SeqCst);
        }
    }
}

fn show_chunks(arena: &Arena) {
    let mut slabs = arena.lock_slabs(0);
    let page = slabs.grow(CLASS).unwrap();
    arena.cut(&mut slabs, page, CLASS);
    let started = Instant::now();
    go_round(arena, &mut slabs);
    show("chunk", started, OPERATIONS);
    let chunk = arena.pop(&mut slabs, CLASS).unwrap().unwrap();
    let started = Instant::now();
    fill_words(arena, chunk);
    show("fill", started, OPERATIONS);
}

fn main() {
    show_lock(&Mutex::new(Box::new(Slabs::new(1, 1, 1))));
    show_chunks(&Arena::new(PAGE, PAGES));
}
