//! An item on the page that moves is copied to another page, or else evicted.
use crate::arena::{Arena, Hand};
use crate::header::LINKED;
use crate::locks::Held;
use crate::rows::ChunkId;
use crate::slabs::{Found, Slabs};
use crate::stripe::Stripe;
use std::sync::atomic::Ordering::SeqCst;

/// Whether a turn has swept.
#[derive(Clone, Copy, PartialEq, Eq)]
pub enum Sweep {
    Due,
    Done,
}

/// An item on the moving page.
#[derive(Clone, Copy)]
struct Item {
    class: usize,
    chunk: ChunkId,
    key: u64,
    stamp: u64,
}

impl Arena {
    pub fn visit_linked(
        &self,
        hand: &Hand,
        slabs: &mut Slabs,
        class: usize,
        chunk: ChunkId,
        unheld: bool,
        sweep: &mut Sweep,
    ) -> Found {
        let key = self.word(chunk, self.room_of(class), 0).load(SeqCst);
        let Some(mut stripe) = self.try_stripe(hand.number, self.stripe_of(key)) else {
            return Found::Locked;
        };
        if !unheld {
            return Found::Busy;
        }
        let found = match stripe.find(key) {
            Some((there, stamp)) if there == chunk => {
                stripe.reserve();
                self.save(hand, slabs, stripe, Item { class, chunk, key, stamp }, sweep)
            }
            _ => Found::Busy,
        };
        if found != Found::Busy {
            self.clear(slabs, chunk);
        }
        found
    }

    /// A turn sweeps before it saves its first item, and then before it evicts one.
    fn save(&self, hand: &Hand, slabs: &mut Slabs, mut stripe: Held<'_, Stripe>, item: Item, sweep: &mut Sweep) -> Found {
        let is_due = *sweep == Sweep::Due;
        *sweep = Sweep::Done;
        if is_due {
            self.sweep(slabs, item.class);
        }
        let mut copy = self.pop_off(slabs, item.class, item.chunk);
        if copy.is_none() && !is_due {
            self.sweep(slabs, item.class);
            copy = self.pop_off(slabs, item.class, item.chunk);
        }
        match copy {
            Some(copy) => self.rescue(hand, slabs, stripe, item, copy),
            None => self.evict(hand, &mut stripe, item),
        }
    }

    fn rescue(&self, hand: &Hand, slabs: &mut Slabs, mut stripe: Held<'_, Stripe>, item: Item, copy: ChunkId) -> Found {
        self.copy_item(item.class, item.chunk, copy);
        if !self.take_away(item.chunk) {
            self.give_up(copy, 1);
            drop(stripe);
            self.put_back(slabs, copy);
            return Found::Busy;
        }
        self.header(copy).fetch_add(LINKED, SeqCst);
        stripe.rescue(hand.number, item.key, (copy, item.stamp));
        self.give_up(copy, 1);
        Found::Rescued
    }

    /// Copies key, stamp, length and words.
    fn copy_item(&self, class: usize, chunk: ChunkId, copy: ChunkId) {
        let room = self.room_of(class);
        let [_, _, length] = [0, 1, 2].map(|at| self.copy_word(room, chunk, copy, at));
        for at in 3..3 + length {
            self.copy_word(room, chunk, copy, at);
        }
    }

    fn copy_word(&self, room: u64, chunk: ChunkId, copy: ChunkId, at: u64) -> u64 {
        let word = self.word(chunk, room, at).load(SeqCst);
        self.word(copy, room, at).store(word, SeqCst);
        word
    }

    fn evict(&self, hand: &Hand, stripe: &mut Stripe, item: Item) -> Found {
        if !self.take_away(item.chunk) {
            return Found::Busy;
        }
        stripe.evict(hand.number, item.key);
        Found::Evicted
    }
}
