//! The best plain Rust for the same calls, with std alone: nothing is recorded, a chunk is free as soon as nobody refers to it, and no call's
//! cost grows with the items.
#[path = "best/cache.rs"]
mod cache;
mod driver;
#[path = "best/index.rs"]
mod index;
#[path = "best/lines.rs"]
mod lines;
#[path = "best/lock.rs"]
mod lock;
#[path = "best/mover.rs"]
mod mover;
#[path = "best/slabs.rs"]
mod slabs;
#[cfg(test)]
#[path = "best/tests.rs"]
mod tests;

use cache::{Cache, Hand, Hint, Ref};
use driver::{Memory, Turn};
use std::hint::black_box;

impl Memory for Cache {
    type Hand = Hand;
    type Ref = Ref;
    type Hint = Hint;

    const SWEEPS: bool = false;

    fn open(page: u64, pages: u64, hands: u64) -> (Cache, Vec<Hand>) {
        Cache::new(page, pages, hands)
    }

    fn set(&self, _hand: &mut Hand, key: u64, words: &[u64]) -> bool {
        self.set(key, words).is_ok()
    }

    fn delete(&self, _hand: &mut Hand, key: u64) -> bool {
        self.delete(key)
    }

    fn touch(&self, _hand: &mut Hand, key: u64) -> bool {
        self.touch(key)
    }

    fn get(&self, hand: &mut Hand, key: u64) -> Option<Ref> {
        self.get(hand, key)
    }

    fn try_get(&self, hand: &mut Hand, key: u64) -> Option<Ref> {
        self.try_get(hand, key)
    }

    fn again(&self, hand: &mut Hand, hint: Hint) -> Option<Ref> {
        self.again(hand, hint)
    }

    fn hint(&self, item: &Ref) -> Hint {
        self.hint(item)
    }

    /// The words are read where they are.
    fn read(&self, item: &Ref) -> usize {
        self.words(item).map(black_box).count()
    }

    fn release(&self, hand: &mut Hand, item: Ref) {
        self.release(hand, item);
    }

    /// None is dead but held by somebody.
    fn sweep(&self, _class: usize) {}

    fn reassign(&self, _hand: &mut Hand, from: usize, to: usize) -> bool {
        self.reassign(from, to)
    }

    fn turn(&self, _hand: &mut Hand) -> Turn {
        self.turn()
    }

    fn evicted(&self, class: usize) -> u64 {
        self.slabs.lock().evicted(class)
    }
}

fn main() {
    driver::main::<Cache>();
}
