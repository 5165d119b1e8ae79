//! The calls on keys.
//!
//! Whoever has the lock of a stripe may wait for that of the slabs; whoever has that of the slabs may only try a stripe's. So nobody waits
//! in a ring.
use crate::index::{Hash, Index};
use crate::lines::{lines_of, Chunk, Lines, State, LINE, LINKED};
use crate::lock::{Held, Lock};
use crate::slabs::{class_for, ClassId, Slabs};

const STRIPES: u64 = 64;

/// How many of the oldest chunks an eviction tries.
const TRIES: usize = 5;

/// How many references a hand may have at once, as in the arena.
const MOST_REFS: u64 = 255;

/// A thread's handle.
pub struct Hand {
    refs: u64,
}

/// A reference to an item, to be released.
pub struct Ref {
    chunk: Chunk,
    length: usize,
}

/// Where an item was, and which one.
#[derive(Clone, Copy)]
pub struct Hint {
    chunk: Chunk,
    issue: u64,
}

#[derive(Debug)]
pub enum SetError {
    TooLarge,
    NoRoom,
}

pub struct Cache {
    pub lines: Lines,
    pub slabs: Lock<Slabs>,
    stripes: Vec<Lock<Index>>,
}

/// The stripe of a key that is locked, and which it is.
struct Stripe<'a> {
    number: u64,
    index: Held<'a, Index>,
}

fn stripe_of(key: u64) -> u64 {
    key % STRIPES
}

impl Cache {
    /// A memory of so many pages of so many bytes each, and so many hands.
    pub fn new(page: u64, pages: u64, hands: u64) -> (Cache, Vec<Hand>) {
        let lines = (page / LINE * pages) as usize;
        let per_stripe = lines.div_ceil(STRIPES as usize);
        let cache = Cache {
            lines: Lines::new(lines),
            slabs: Lock::new(Slabs::new(page, pages)),
            stripes: (0..STRIPES).map(|_| Lock::new(Index::new(per_stripe))).collect(),
        };
        (cache, (0..hands).map(|_| Hand { refs: 0 }).collect())
    }

    pub fn index_of(&self, key: u64) -> &Lock<Index> {
        &self.stripes[stripe_of(key) as usize]
    }

    /// A reference to the key's item.
    #[inline]
    pub fn get(&self, hand: &mut Hand, key: u64) -> Option<Ref> {
        if hand.refs >= MOST_REFS {
            return None;
        }
        self.look_up(hand, self.index_of(key).lock(), key)
    }

    /// The same without waiting for the lock of the key's stripe.
    #[inline]
    pub fn try_get(&self, hand: &mut Hand, key: u64) -> Option<Ref> {
        if hand.refs >= MOST_REFS {
            return None;
        }
        self.look_up(hand, self.index_of(key).try_lock()?, key)
    }

    #[inline]
    fn look_up(&self, hand: &mut Hand, index: Held<'_, Index>, key: u64) -> Option<Ref> {
        let chunk = index.find(&self.lines, Hash::of(key), key)?;
        self.lines.hold(chunk);
        drop(index);
        hand.refs += 1;
        Some(self.ref_to(chunk))
    }

    fn ref_to(&self, chunk: Chunk) -> Ref {
        Ref { chunk, length: self.lines.length(chunk) }
    }

    /// A hint to an item that is referred to.
    pub fn hint(&self, item: &Ref) -> Hint {
        Hint { chunk: item.chunk, issue: self.lines.issue(item.chunk) }
    }

    /// A reference to the item of the hint, with no lock, unless it has gone.
    #[inline]
    pub fn again(&self, hand: &mut Hand, hint: Hint) -> Option<Ref> {
        if hand.refs >= MOST_REFS || !self.lines.hold_issue(hint.chunk, hint.issue) {
            return None;
        }
        hand.refs += 1;
        Some(self.ref_to(hint.chunk))
    }

    /// The item's words, where they are.
    #[inline]
    pub fn words(&self, item: &Ref) -> impl Iterator<Item = u64> + '_ {
        self.lines.words(item.chunk, item.length)
    }

    #[inline]
    pub fn release(&self, hand: &mut Hand, item: Ref) {
        hand.refs -= 1;
        self.give_up(item.chunk, 1);
    }

    /// Gives up so many references, or `LINKED`. With the last of them the chunk is free.
    #[inline]
    fn give_up(&self, chunk: Chunk, part: u64) {
        if self.lines.give_up(chunk, part) {
            self.free(chunk);
        }
    }

    /// Most references aren't the last, so this isn't made a part of a release.
    #[inline(never)]
    fn free(&self, chunk: Chunk) {
        self.slabs.lock().give_back(chunk);
    }

    /// Deletes the key. False where it has no item.
    pub fn delete(&self, key: u64) -> bool {
        let hash = Hash::of(key);
        let mut index = self.index_of(key).lock();
        let Some(chunk) = index.find(&self.lines, hash, key) else {
            return false;
        };
        index.remove(hash, chunk);
        // With the stripe still locked: what is linked has a key, or an eviction would take away what this gives up.
        let is_last = self.lines.give_up(chunk, LINKED);
        drop(index);
        if is_last {
            self.free(chunk);
        }
        true
    }

    /// Makes the key's item the one of its class that is evicted last. False where it has none.
    pub fn touch(&self, key: u64) -> bool {
        let index = self.index_of(key).lock();
        let Some(chunk) = index.find(&self.lines, Hash::of(key), key) else {
            return false;
        };
        if let Some(class) = class_for(lines_of(self.lines.length(chunk))) {
            self.slabs.lock().make_newest(class, chunk);
        }
        true
    }

    /// Stores an item under the key, in place of the one that it has.
    pub fn set(&self, key: u64, words: &[u64]) -> Result<(), SetError> {
        let class = class_for(lines_of(words.len())).ok_or(SetError::TooLarge)?;
        let mut stripe = Stripe { number: stripe_of(key), index: self.index_of(key).lock() };
        let old = stripe.index.find(&self.lines, Hash::of(key), key);
        match old {
            Some(chunk) if self.is_of(class, chunk) && self.lines.take_away(chunk) => {
                self.overwrite(class, chunk, key, words);
                Ok(())
            }
            _ => self.store(&mut stripe, class, old, key, words),
        }
    }

    /// Whether the item is of such a size.
    fn is_of(&self, class: ClassId, chunk: Chunk) -> bool {
        class_for(lines_of(self.lines.length(chunk))) == Some(class)
    }

    /// Nobody refers to the old item, so its chunk takes the new one.
    fn overwrite(&self, class: ClassId, chunk: Chunk, key: u64, words: &[u64]) {
        self.lines.write(chunk, key, words);
        self.lines.link(chunk);
        self.slabs.lock().make_newest(class, chunk);
    }

    /// Stores the item in a chunk of its own.
    fn store(&self, stripe: &mut Stripe, class: ClassId, old: Option<Chunk>, key: u64, words: &[u64]) -> Result<(), SetError> {
        let hash = Hash::of(key);
        let chunk = self.supply(stripe, class).ok_or(SetError::NoRoom)?;
        self.lines.write(chunk, key, words);
        self.lines.link(chunk);
        match old {
            Some(old) if stripe.index.replace(hash, old, chunk) => self.give_up(old, LINKED),
            _ => stripe.index.insert(hash, chunk),
        }
        Ok(())
    }

    /// A free chunk of the class, or of a new page, or else that of an item that is evicted.
    fn supply(&self, stripe: &mut Stripe, class: ClassId) -> Option<Chunk> {
        let mut slabs = self.slabs.lock();
        if let Some(chunk) = slabs.pop(class) {
            return Some(chunk);
        }
        if slabs.grow(class) {
            return slabs.pop(class);
        }
        let chunk = self.evict(&slabs, stripe, class)?;
        slabs.count_eviction(class);
        slabs.make_newest(class, chunk);
        Some(chunk)
    }

    /// Takes the first item away, of the five that come first in the class's order, to which nobody refers.
    fn evict(&self, slabs: &Slabs, stripe: &mut Stripe, class: ClassId) -> Option<Chunk> {
        let mut next = slabs.next_out(class, None);
        for _ in 0..TRIES {
            let chunk = next?;
            if self.lines.state(chunk) == State::Unheld && self.forget(stripe, chunk) {
                return Some(chunk);
            }
            next = slabs.next_out(class, Some(chunk));
        }
        None
    }

    /// Takes an item out of its index, if its stripe is the caller's, or free. Under the lock of the slabs its chunk has no other key.
    fn forget(&self, stripe: &mut Stripe, chunk: Chunk) -> bool {
        let key = self.lines.key(chunk);
        if stripe_of(key) == stripe.number {
            return self.forget_in(&mut stripe.index, chunk, key);
        }
        match self.index_of(key).try_lock() {
            Some(mut index) => self.forget_in(&mut index, chunk, key),
            None => false,
        }
    }

    fn forget_in(&self, index: &mut Index, chunk: Chunk, key: u64) -> bool {
        let is_taken = self.lines.take_away(chunk);
        if is_taken {
            index.remove(Hash::of(key), chunk);
        }
        is_taken
    }
}
