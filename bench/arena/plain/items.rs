//! The calls on keys, and on references to items.
use crate::arena::{Arena, Hand};
use crate::chunks::WornOut;
use crate::header::{tag, ISSUE_UNIT, LINKED, LINKED_TAG};
use crate::locks::Held;
use crate::rows::ChunkId;
use crate::stripe::Stripe;
use std::hint::black_box;
use std::sync::atomic::Ordering::SeqCst;

/// How many references a hand may have at once.
const MOST_REFS: u64 = 255;
const STAMP_UNIT: u64 = 281_474_976_710_656;

/// A reference to an item.
pub struct Ref {
    pub chunk: ChunkId,
    pub issue: u64,
    room: u64,
    len: u64,
}

#[derive(Clone, Copy)]
pub struct Hint {
    pub chunk: ChunkId,
    pub issue: u64,
}

#[derive(Debug)]
pub enum SetError {
    TooLarge,
    NoRoom,
    WornOut,
}

impl From<WornOut> for SetError {
    fn from(_: WornOut) -> SetError {
        SetError::WornOut
    }
}

/// Items that are stored and deleted.
impl Arena {
    pub fn set(&self, hand: &mut Hand, key: u64, words: &[u64]) -> Result<u64, SetError> {
        let bytes = 24 + 8 * words.len() as u64;
        let class = self.sizes.iter().position(|size| *size >= bytes).ok_or(SetError::TooLarge)?;
        if hand.stamps + 1 >= STAMP_UNIT {
            return Err(SetError::WornOut);
        }
        let stamp = hand.number * STAMP_UNIT + hand.stamps + 1;
        let mut slabs = self.lock_slabs(hand.number);
        let supplied = self.supply(hand, &mut slabs, class);
        drop(slabs);
        let chunk = supplied?.ok_or(SetError::NoRoom)?;
        self.fill(chunk, class, [key, stamp, words.len() as u64], words);
        self.store(hand, chunk, key, stamp);
        Ok(stamp)
    }

    fn fill(&self, chunk: ChunkId, class: usize, front: [u64; 3], words: &[u64]) {
        let room = self.room_of(class);
        for (at, word) in front.iter().chain(words).enumerate() {
            self.word(chunk, room, at as u64).store(*word, SeqCst);
        }
    }

    /// Leads the key to the chunk, and gives up the reference by which it was filled.
    fn store(&self, hand: &mut Hand, chunk: ChunkId, key: u64, stamp: u64) {
        let mut stripe = self.lock_stripe(hand.number, self.stripe_of(key));
        if let Some((old, _)) = stripe.link(hand.number, key, chunk, stamp) {
            self.give_up(old, LINKED);
        }
        self.header(chunk).fetch_add(LINKED, SeqCst);
        hand.stamps += 1;
        drop(stripe);
        self.give_up(chunk, 1);
    }

    pub fn delete(&self, hand: &Hand, key: u64) -> bool {
        let mut stripe = self.lock_stripe(hand.number, self.stripe_of(key));
        let found = stripe.unlink(hand.number, key);
        if let Some((chunk, _)) = found {
            self.give_up(chunk, LINKED);
        }
        found.is_some()
    }
}

/// References.
impl Arena {
    pub fn get(&self, hand: &mut Hand, key: u64) -> Option<Ref> {
        if hand.chunks >= MOST_REFS {
            return None;
        }
        let stripe = self.lock_stripe(hand.number, self.stripe_of(key));
        let (chunk, issue) = self.refer(hand, stripe, key)?;
        Some(self.look_at(chunk, issue))
    }

    pub fn try_get(&self, hand: &mut Hand, key: u64) -> Option<Ref> {
        if hand.chunks >= MOST_REFS {
            return None;
        }
        let stripe = self.try_stripe(hand.number, self.stripe_of(key))?;
        let (chunk, issue) = self.refer(hand, stripe, key)?;
        Some(self.look_at(chunk, issue))
    }

    /// Refers to the key's item, and gives the lock of its stripe back.
    fn refer(&self, hand: &mut Hand, mut stripe: Held<'_, Stripe>, key: u64) -> Option<(ChunkId, u64)> {
        let found = stripe.find(key);
        let Some((chunk, _)) = found else {
            stripe.got(hand.number, key, None);
            return None;
        };
        let head = self.header(chunk).fetch_add(1, SeqCst);
        hand.chunks += 1;
        stripe.got(hand.number, key, found);
        drop(stripe);
        Some((chunk, head / ISSUE_UNIT))
    }

    /// Key, stamp and length are read at once, as the arena does.
    fn look_at(&self, chunk: ChunkId, issue: u64) -> Ref {
        let room = self.room(chunk);
        let [key, stamp, len] = [0, 1, 2].map(|at| self.word(chunk, room, at).load(SeqCst));
        black_box((key, stamp));
        Ref { chunk, issue, room, len }
    }

    pub fn again(&self, hand: &mut Hand, hint: Hint) -> Option<Ref> {
        if hand.chunks >= MOST_REFS {
            return None;
        }
        let header = self.header(hint.chunk);
        let head = header.load(SeqCst);
        if tag(head) != LINKED_TAG || head / ISSUE_UNIT != hint.issue {
            return None;
        }
        header.compare_exchange(head, head + 1, SeqCst, SeqCst).ok()?;
        hand.chunks += 1;
        Some(self.look_at(hint.chunk, hint.issue))
    }

    pub fn read(&self, item: &Ref) -> Vec<u64> {
        let mut words = Vec::with_capacity(item.len as usize);
        for place in 0..item.len {
            words.push(self.word(item.chunk, item.room, 3 + place).load(SeqCst));
        }
        words
    }

    pub fn release(&self, hand: &mut Hand, item: Ref) {
        self.give_up(item.chunk, 1);
        hand.chunks -= 1;
    }

    /// Makes the key's item the one of its class that is evicted last. It is a get, and the reference is given up.
    pub fn touch(&self, hand: &mut Hand, key: u64) -> bool {
        let stripe = self.lock_stripe(hand.number, self.stripe_of(key));
        let Some((chunk, _)) = self.refer(hand, stripe, key) else {
            return false;
        };
        self.lock_slabs(hand.number).touch(chunk);
        self.give_up(chunk, 1);
        hand.chunks -= 1;
        true
    }
}
