//! Ninety gets and ten sets of a hundred calls, over a full memory of one class, by one, two and four threads; and gets alone.
use super::numbers::Numbers;
use super::{get_and_release, set_keys, show, Memory, PAGE, PER_PAGE};
use std::thread;
use std::time::Instant;

const PAGES: u64 = 64;
const ROOM: u64 = PAGES * PER_PAGE;
const STRIPES: u64 = 64;
const OPERATIONS: u64 = 50_000;

/// Which keys a thread names.
#[derive(Clone, Copy)]
enum Keys {
    All,
    /// Of stripes that no other thread has.
    Own,
    OneStripe,
    One,
    /// Of a stripe beside that of the thread before.
    Neighbours,
    /// Of a stripe 16 behind that of the thread before.
    Apart,
}

impl Keys {
    fn name(self) -> &'static str {
        match self {
            Keys::All => "mix-all",
            Keys::Own => "mix-own",
            Keys::OneStripe => "mix-stripe",
            Keys::One => "mix-key",
            Keys::Neighbours => "gets-neighbours",
            Keys::Apart => "gets-apart",
        }
    }

    /// Whether some of the calls are sets.
    fn has_sets(self) -> bool {
        !matches!(self, Keys::Neighbours | Keys::Apart)
    }

    /// A key of a thread of so many.
    fn draw(self, numbers: &mut Numbers, thread: u64, threads: u64) -> u64 {
        match self {
            Keys::All => numbers.below(ROOM),
            Keys::Own => numbers.below(ROOM / threads) * threads + thread,
            Keys::OneStripe => numbers.below(ROOM / STRIPES) * STRIPES,
            Keys::One => 0,
            Keys::Neighbours => key_of_stripe(numbers, thread, thread),
            Keys::Apart => key_of_stripe(numbers, thread, 16 * thread),
        }
    }
}

/// A key of the stripe, out of a fourth of its keys that no other thread has: so the headers of two threads' chunks are far from each other.
fn key_of_stripe(numbers: &mut Numbers, thread: u64, stripe: u64) -> u64 {
    let share = ROOM / STRIPES / 4;
    (thread * share + numbers.below(share)) * STRIPES + stripe
}

/// One thread's calls, by its own hand: hands beside each other would share a line of the cache.
fn mix<M: Memory>(memory: &M, mut hand: M::Hand, keys: Keys, thread: u64, threads: u64) {
    let mut numbers = Numbers::new(thread);
    for _ in 0..OPERATIONS {
        let key = keys.draw(&mut numbers, thread, threads);
        if numbers.below(10) == 0 && keys.has_sets() {
            assert!(memory.set(&mut hand, key, &[key, key, key]));
        } else {
            get_and_release(memory, &mut hand, key);
        }
    }
}

/// A thread for each of the hands. The first of them is this one.
fn mix_at_once<M: Memory>(memory: &M, hands: Vec<M::Hand>, keys: Keys) {
    let threads = hands.len() as u64;
    let mut parts = (0..).zip(hands).map(|(thread, hand)| move || mix(memory, hand, keys, thread, threads));
    let first = parts.next();
    thread::scope(|scope| {
        parts.for_each(|part| _ = scope.spawn(part));
        if let Some(part) = first {
            part();
        }
    });
}

/// In a memory of its own, with hands for each number of threads.
fn show_keys<M: Memory>(keys: Keys) {
    let (memory, mut hands) = M::open(PAGE, PAGES, 7);
    set_keys(&memory, &mut hands[0], 0, ROOM);
    for threads in [1, 2, 4] {
        let others = hands.split_off(threads);
        let started = Instant::now();
        mix_at_once(&memory, hands, keys);
        show(keys.name(), threads as u64, started.elapsed(), threads as u64 * OPERATIONS);
        hands = others;
    }
}

pub fn run<M: Memory>() {
    [Keys::All, Keys::Own, Keys::OneStripe, Keys::One, Keys::Neighbours, Keys::Apart].into_iter().for_each(show_keys::<M>);
}
