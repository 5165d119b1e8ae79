//! The same work as the arena's, in plain Rust and unchecked.
#[path = "plain/ages.rs"]
mod ages;
#[path = "plain/arena.rs"]
mod arena;
#[path = "plain/chunks.rs"]
mod chunks;
#[path = "plain/dead.rs"]
mod dead;
mod driver;
#[path = "plain/header.rs"]
mod header;
#[path = "plain/hints.rs"]
mod hints;
#[path = "plain/items.rs"]
mod items;
#[path = "plain/locks.rs"]
mod locks;
#[cfg(test)]
#[path = "plain/model.rs"]
mod model;
#[path = "plain/moving.rs"]
mod moving;
#[path = "plain/rows.rs"]
mod rows;
#[path = "plain/saving.rs"]
mod saving;
#[path = "plain/slabs.rs"]
mod slabs;
#[path = "plain/stripe.rs"]
mod stripe;
#[path = "plain/supplying.rs"]
mod supplying;
#[path = "plain/surveying.rs"]
mod surveying;
#[path = "plain/sweeping.rs"]
mod sweeping;
#[cfg(test)]
#[path = "plain/tests.rs"]
mod tests;

use arena::{Arena, Hand};
use driver::{Memory, Turn};
use items::{Hint, Ref};
use std::hint::black_box;

impl Memory for Arena {
    type Hand = Hand;
    type Ref = Ref;
    type Hint = Hint;

    const SWEEPS: bool = true;

    fn open(page: u64, pages: u64, hands: u64) -> (Arena, Vec<Hand>) {
        (Arena::new(page, pages), (0..hands).map(Hand::new).collect())
    }

    fn set(&self, hand: &mut Hand, key: u64, words: &[u64]) -> bool {
        self.set(hand, key, words).is_ok()
    }

    fn delete(&self, hand: &mut Hand, key: u64) -> bool {
        self.delete(hand, key)
    }

    fn touch(&self, hand: &mut Hand, key: u64) -> bool {
        self.touch(hand, key)
    }

    fn get(&self, hand: &mut Hand, key: u64) -> Option<Ref> {
        self.get(hand, key)
    }

    fn try_get(&self, hand: &mut Hand, key: u64) -> Option<Ref> {
        self.try_get(hand, key)
    }

    fn again(&self, hand: &mut Hand, hint: Hint) -> Option<Ref> {
        self.again(hand, hint)
    }

    fn hint(&self, item: &Ref) -> Hint {
        Hint { chunk: item.chunk, issue: item.issue }
    }

    /// The words are read into a vector, as the arena's are.
    fn read(&self, item: &Ref) -> usize {
        black_box(self.read(item)).len()
    }

    fn release(&self, hand: &mut Hand, item: Ref) {
        self.release(hand, item);
    }

    /// A survey sweeps all classes, as the arena's does.
    fn sweep(&self, _class: usize) {
        black_box(self.survey(0, true));
    }

    fn reassign(&self, hand: &mut Hand, from: usize, to: usize) -> bool {
        self.reassign(hand, from - 1, to.checked_sub(1))
    }

    fn turn(&self, hand: &mut Hand) -> Turn {
        self.turn(hand)
    }

    fn evicted(&self, class: usize) -> u64 {
        self.survey(0, false)[class - 1].evicted
    }
}

fn main() {
    driver::main::<Arena>();
}
