//! A stripe's index, from keys to chunks. An entry is eight bytes, since the key itself stands in the chunk, which a caller reads anyhow.
use crate::lines::{Chunk, Lines};

/// Where a key's search begins, and what is looked at before its chunk is.
#[derive(Clone, Copy, PartialEq, Eq)]
pub struct Hash(u32);

impl Hash {
    /// The upper half of one product.
    #[inline]
    pub fn of(key: u64) -> Hash {
        Hash((key.wrapping_mul(0x9e37_79b9_7f4a_7c15) >> 32) as u32)
    }
}

#[derive(Clone, Copy)]
struct Entry {
    hash: Hash,
    chunk: Chunk,
}

/// No chunk has this number.
const EMPTY: Entry = Entry { hash: Hash(0), chunk: Chunk(u32::MAX) };

impl Entry {
    fn is_empty(self) -> bool {
        self.chunk == EMPTY.chunk
    }
}

/// Open addressing with steps of one; an entry stands no further behind its place than others pushed it.
pub struct Index {
    entries: Vec<Entry>,
    count: usize,
    /// A hash's place is its highest bits: the number of entries is a power of two.
    shift: u32,
}

impl Index {
    /// With room for so many items before it grows.
    pub fn new(items: usize) -> Index {
        let room = (2 * items).next_power_of_two().max(16);
        Index { entries: vec![EMPTY; room], count: 0, shift: 32 - room.trailing_zeros() }
    }

    fn place_of(&self, hash: Hash) -> usize {
        (hash.0 >> self.shift) as usize
    }

    fn next(&self, place: usize) -> usize {
        (place + 1) & (self.entries.len() - 1)
    }

    /// The first place from the hash's own where this is so, and its chunk, unless an empty one comes before.
    #[inline]
    fn search(&self, hash: Hash, is_it: impl Fn(Chunk) -> bool) -> Option<(usize, Chunk)> {
        let mut place = self.place_of(hash);
        loop {
            let entry = self.entries[place];
            if entry.hash == hash && !entry.is_empty() && is_it(entry.chunk) {
                return Some((place, entry.chunk));
            }
            if entry.is_empty() {
                return None;
            }
            place = self.next(place);
        }
    }

    #[inline]
    pub fn find(&self, lines: &Lines, hash: Hash, key: u64) -> Option<Chunk> {
        let (_, chunk) = self.search(hash, |chunk| lines.key(chunk) == key)?;
        Some(chunk)
    }

    /// Leads the key that leads to the one chunk to the other. False where none does.
    pub fn replace(&mut self, hash: Hash, old: Chunk, new: Chunk) -> bool {
        let Some((place, _)) = self.search(hash, |chunk| chunk == old) else {
            return false;
        };
        self.entries[place].chunk = new;
        true
    }

    /// Leads a key that leads nowhere to the chunk.
    #[inline]
    pub fn insert(&mut self, hash: Hash, chunk: Chunk) {
        if 4 * (self.count + 1) > 3 * self.entries.len() {
            self.grow();
        }
        self.put(Entry { hash, chunk });
        self.count += 1;
    }

    fn put(&mut self, entry: Entry) {
        let mut place = self.place_of(entry.hash);
        while !self.entries[place].is_empty() {
            place = self.next(place);
        }
        self.entries[place] = entry;
    }

    #[cold]
    fn grow(&mut self) {
        let doubled = vec![EMPTY; 2 * self.entries.len()];
        self.shift -= 1;
        let entries = std::mem::replace(&mut self.entries, doubled);
        for entry in entries.into_iter().filter(|entry| !entry.is_empty()) {
            self.put(entry);
        }
    }

    /// Takes the entry out that leads to the chunk.
    #[inline]
    pub fn remove(&mut self, hash: Hash, chunk: Chunk) {
        let found = self.search(hash, |other| other == chunk);
        debug_assert!(found.is_some(), "no key leads to {chunk:?}");
        if let Some((place, _)) = found {
            self.close(place);
            self.count -= 1;
        }
    }

    /// Empties a place, and moves up what was pushed behind it.
    fn close(&mut self, place: usize) {
        let mask = self.entries.len() - 1;
        let (mut gap, mut place) = (place, self.next(place));
        while !self.entries[place].is_empty() {
            let entry = self.entries[place];
            let pushed = place.wrapping_sub(self.place_of(entry.hash)) & mask;
            if pushed >= place.wrapping_sub(gap) & mask {
                self.entries[gap] = entry;
                gap = place;
            }
            place = self.next(place);
        }
        self.entries[gap] = EMPTY;
    }
}
