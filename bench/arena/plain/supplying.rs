//! A chunk for an item: a free one, or one that is put back, of a new page, or of an item that is evicted.
use crate::arena::{Arena, Hand};
use crate::chunks::WornOut;
use crate::header::is_unheld;
use crate::rows::ChunkId;
use crate::slabs::Slabs;
use std::sync::atomic::Ordering::SeqCst;

/// How many of the oldest chunks an eviction tries.
const TRIES: u64 = 5;

impl Arena {
    /// None where there is no room.
    pub fn supply(&self, hand: &Hand, slabs: &mut Slabs, class: usize) -> Result<Option<ChunkId>, WornOut> {
        if let Some(chunk) = self.pop_or_sweep(slabs, class)? {
            return Ok(Some(chunk));
        }
        if !self.grow(slabs, class) && !self.evict_one(hand, slabs, class) {
            return Ok(None);
        }
        self.pop(slabs, class)
    }

    /// Only where hints give nothing all chunks are looked at.
    fn pop_or_sweep(&self, slabs: &mut Slabs, class: usize) -> Result<Option<ChunkId>, WornOut> {
        if let Some(chunk) = self.pop(slabs, class)? {
            return Ok(Some(chunk));
        }
        self.recover(slabs, class);
        if let Some(chunk) = self.pop(slabs, class)? {
            return Ok(Some(chunk));
        }
        self.sweep(slabs, class);
        self.pop(slabs, class)
    }

    fn grow(&self, slabs: &mut Slabs, class: usize) -> bool {
        let Some(page) = slabs.grow(class) else {
            return false;
        };
        self.tell_page(page, class);
        self.cut(slabs, page, class);
        true
    }

    /// Makes the first chunk free, of the five that come first in the class's order, whose item nobody holds, or which is dead.
    fn evict_one(&self, hand: &Hand, slabs: &mut Slabs, class: usize) -> bool {
        let mut next = slabs.first_out(class);
        for _ in 0..TRIES {
            let Some(chunk) = next else {
                return false;
            };
            next = slabs.next(chunk);
            if self.condemn(hand, class, chunk) {
                slabs.evicted[class] += 1;
                self.put_back(slabs, chunk);
                return true;
            }
            if self.put_back(slabs, chunk) {
                return true;
            }
        }
        false
    }

    /// Takes an item away, if nobody holds it and its stripe is free.
    fn condemn(&self, hand: &Hand, class: usize, chunk: ChunkId) -> bool {
        if !is_unheld(self.header(chunk).load(SeqCst)) {
            return false;
        }
        let key = self.word(chunk, self.room_of(class), 0).load(SeqCst);
        let Some(mut stripe) = self.try_stripe(hand.number, self.stripe_of(key)) else {
            return false;
        };
        let is_taken = self.take_away(chunk);
        if is_taken {
            stripe.evict(hand.number, key);
        }
        is_taken
    }
}
