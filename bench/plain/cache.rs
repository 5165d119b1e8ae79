//! Items by key, and the workers' holds.

use std::collections::HashMap;

use crate::chunk::{Chunk, State};
use crate::script::MOST_WORKER;
use crate::slabs::Slabs;

/// A worker holds at most so many items.
const MOST_HOLDS: usize = 255;
/// An eviction looks at so many of the oldest chunks.
const EVICTION_TRIES: usize = 5;
/// Words of an item before its own: key, stamp, length.
const ITEM_HEADER: usize = 3;

pub enum SetRefusal {
    TooLarge,
    NoRoom,
}

pub enum GetRefusal {
    TooManyHolds,
    NotFound,
}

pub struct Cache {
    pub slabs: Slabs,
    index: HashMap<u64, Chunk>,
    /// The keys that a worker holds and their chunks, the last taken last.
    holds: Vec<Vec<(u64, Chunk)>>,
    /// Mode of the automover.
    pub automove: u64,
    stamps: u64,
}

impl Cache {
    pub fn new(slabs: Slabs, automove: u64) -> Cache {
        let holds = vec![Vec::new(); MOST_WORKER as usize + 1];
        Cache {
            slabs,
            index: HashMap::new(),
            holds,
            automove,
            stamps: 0,
        }
    }

    pub fn key(&self, chunk: Chunk) -> u64 {
        self.slabs.words(chunk)[0]
    }

    /// The item's own words.
    pub fn value(&self, chunk: Chunk) -> &[u64] {
        let words = self.slabs.words(chunk);
        &words[ITEM_HEADER..][..words[2] as usize]
    }

    /// Stores `count` words from `base` upward.
    pub fn set(&mut self, key: u64, count: usize, base: u64) -> Result<(), SetRefusal> {
        let bytes = 8 * (ITEM_HEADER + count);
        let class = self
            .slabs
            .table
            .class_for(bytes)
            .ok_or(SetRefusal::TooLarge)?;
        let chunk = self.chunk_for(class).ok_or(SetRefusal::NoRoom)?;
        self.delete(key);
        self.stamps += 1;
        let words = self.slabs.words_mut(chunk);
        words[..ITEM_HEADER].copy_from_slice(&[key, self.stamps, count as u64]);
        for (place, word) in words[ITEM_HEADER..][..count].iter_mut().enumerate() {
            *word = base.wrapping_add(place as u64);
        }
        self.slabs.header_mut(chunk).state = State::Linked;
        self.index.insert(key, chunk);
        Ok(())
    }

    /// A free chunk, or else a dead one, or else one of a new page, or else one whose item is evicted.
    fn chunk_for(&mut self, class: usize) -> Option<Chunk> {
        if let Some(chunk) = self.slabs.pop(class) {
            return Some(chunk);
        }
        self.slabs.sweep(class);
        if let Some(chunk) = self.slabs.pop(class) {
            return Some(chunk);
        }
        if self.slabs.grow(class) {
            return self.slabs.pop(class);
        }
        self.evict(class)?;
        let chunk = self.slabs.pop(class);
        if self.automove == 2 {
            let _ = self.slabs.begin_move(None, class as u64);
        }
        chunk
    }

    /// Of the oldest few items the first that nobody holds gives up its chunk.
    fn evict(&mut self, class: usize) -> Option<()> {
        let chunk = self.slabs.oldest_idle(class, EVICTION_TRIES)?;
        self.index.remove(&self.key(chunk));
        self.slabs.back(chunk);
        self.slabs.class_mut(class).evictions += 1;
        Some(())
    }

    pub fn get(&self, worker: usize, key: u64) -> Result<Chunk, GetRefusal> {
        if self.holds[worker].len() >= MOST_HOLDS {
            return Err(GetRefusal::TooManyHolds);
        }
        self.index.get(&key).copied().ok_or(GetRefusal::NotFound)
    }

    pub fn hold(&mut self, worker: usize, key: u64) -> Result<(), GetRefusal> {
        let chunk = self.get(worker, key)?;
        self.slabs.header_mut(chunk).holds += 1;
        self.holds[worker].push((key, chunk));
        Ok(())
    }

    /// The chunk of the worker's last hold of the key. It is to be let go once its words were read.
    pub fn take_hold(&mut self, worker: usize, key: u64) -> Option<Chunk> {
        let place = self.holds[worker]
            .iter()
            .rposition(|&(held, _)| held == key)?;
        Some(self.holds[worker].remove(place).1)
    }

    pub fn let_go(&mut self, chunk: Chunk) {
        self.slabs.header_mut(chunk).holds -= 1;
        self.slabs.note_dead(chunk);
    }

    pub fn delete(&mut self, key: u64) -> bool {
        let Some(chunk) = self.index.remove(&key) else {
            return false;
        };
        self.slabs.header_mut(chunk).state = State::Unlinked;
        self.slabs.note_dead(chunk);
        true
    }

    pub fn touch(&mut self, key: u64) -> bool {
        let Some(&chunk) = self.index.get(&key) else {
            return false;
        };
        self.slabs.touch(chunk);
        true
    }

    /// The item at `old` goes to a free chunk off its page, or else is evicted. True where it was rescued.
    pub fn rescue_or_evict(&mut self, old: Chunk) -> bool {
        let key = self.key(old);
        if let Some(new) = self.slabs.pop_off(old) {
            self.slabs.copy(old, new);
            self.index.insert(key, new);
            return true;
        }
        self.index.remove(&key);
        self.slabs.clear(old);
        false
    }
}
