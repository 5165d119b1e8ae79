//! The work that is timed, of any memory. A line of output is a name, nanoseconds, and how many operations took them.
pub mod alone;
pub mod beside;
pub mod full;
pub mod items;
pub mod mixes;
pub mod moves;
pub mod numbers;

use std::time::{Duration, Instant};

/// The bytes of a page, but in the smallest memory, and how many chunks of class 1 it has.
pub const PAGE: u64 = 16_384;
pub const PER_PAGE: u64 = 256;

/// From one key to the next: so no two items that follow each other lie near one another, and each of the keys has its turn.
const STRIDE: u64 = 617;

/// What the mover did with chunks.
#[derive(Clone, Copy, Debug, Default, PartialEq, Eq)]
pub struct Counts {
    pub cleared: u64,
    pub rescued: u64,
    pub evicted: u64,
    pub busy: u64,
    pub locked: u64,
}

impl Counts {
    /// Of both together.
    pub fn and(self, other: Counts) -> Counts {
        Counts {
            cleared: self.cleared + other.cleared,
            rescued: self.rescued + other.rescued,
            evicted: self.evicted + other.evicted,
            busy: self.busy + other.busy,
            locked: self.locked + other.locked,
        }
    }
}

/// What a turn of the mover came to.
pub enum Turn {
    Idle,
    Went(Counts),
    Finished(Counts),
}

/// A memory of chunks of 64, 128, 256 and 512 bytes, classes 1 to 4, that several hands use at once.
pub trait Memory: Sized + Sync {
    type Hand: Send;
    type Ref;
    type Hint: Copy;

    /// Whether dead chunks lie about until they are looked for.
    const SWEEPS: bool;

    /// Of so many pages of so many bytes each.
    fn open(page: u64, pages: u64, hands: u64) -> (Self, Vec<Self::Hand>);

    /// False where it was refused.
    fn set(&self, hand: &mut Self::Hand, key: u64, words: &[u64]) -> bool;

    /// False where the key has no item.
    fn delete(&self, hand: &mut Self::Hand, key: u64) -> bool;

    /// False where the key has no item.
    fn touch(&self, hand: &mut Self::Hand, key: u64) -> bool;

    fn get(&self, hand: &mut Self::Hand, key: u64) -> Option<Self::Ref>;

    fn try_get(&self, hand: &mut Self::Hand, key: u64) -> Option<Self::Ref>;

    fn again(&self, hand: &mut Self::Hand, hint: Self::Hint) -> Option<Self::Ref>;

    fn hint(&self, item: &Self::Ref) -> Self::Hint;

    /// Reads all words of the item, and says how many they are.
    fn read(&self, item: &Self::Ref) -> usize;

    fn release(&self, hand: &mut Self::Hand, item: Self::Ref);

    /// Puts the dead chunks of the class back.
    fn sweep(&self, class: usize);

    /// The first page of the class begins to move to the other one, or to the pool, 0. False where a page moves already, or the class has
    /// no other.
    fn reassign(&self, hand: &mut Self::Hand, from: usize, to: usize) -> bool;

    fn turn(&self, hand: &mut Self::Hand) -> Turn;

    /// How many items of the class were evicted for others.
    fn evicted(&self, class: usize) -> u64;
}

/// A memory with one hand.
fn open_one<M: Memory>(page: u64, pages: u64) -> (M, M::Hand) {
    let (memory, mut hands) = M::open(page, pages, 1);
    (memory, hands.remove(0))
}

/// Stores an item of three words under so many keys, from the first on.
fn set_keys<M: Memory>(memory: &M, hand: &mut M::Hand, first: u64, count: u64) {
    for place in 0..count {
        assert!(memory.set(hand, first + place, &[first + place, place, first]));
    }
}

fn get_and_release<M: Memory>(memory: &M, hand: &mut M::Hand, key: u64) -> bool {
    let item = memory.get(hand, key);
    let is_there = item.is_some();
    if let Some(item) = item {
        memory.release(hand, item);
    }
    is_there
}

/// The key after this one of so many.
fn next_key(key: u64, count: u64) -> u64 {
    let next = key + STRIDE;
    if next < count { next } else { next - count }
}

fn time(work: impl FnOnce()) -> Duration {
    let started = Instant::now();
    work();
    started.elapsed()
}

fn show(name: &str, size: u64, took: Duration, operations: u64) {
    println!("{name}-{size} {} {operations}", took.as_nanos());
}

/// Does the work of this name. Some has a number, of operations.
pub fn run<M: Memory>(work: &str, number: u64) {
    match work {
        "items" => items::run::<M>(),
        "moves" => moves::run::<M>(),
        "full" => full::run::<M>(),
        "mixes" => mixes::run::<M>(),
        "beside" => beside::run::<M>(),
        "alone" => alone::run::<M>(number),
        _ => panic!("{work}: none of items, moves, full, mixes, beside and alone"),
    }
}

/// The work that the command line names.
pub fn main<M: Memory>() {
    let mut words = std::env::args().skip(1);
    let work = words.next().expect("the name of a work");
    run::<M>(&work, words.next().map_or(0, |number| number.parse().expect("a number")));
}
