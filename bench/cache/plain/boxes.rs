//! A shard whose values are in boxes, each with its key. All that it takes is counted, as far as it can be known.
use crate::chains::{Chained, Chains};
use crate::order::{Linked, Links, Order};
use crate::shards::Shard;

struct Entry {
    hash: u32,
    next: u32,
    links: Links,
    /// The key's length, the key and the value.
    bytes: Box<[u8]>,
}

impl Linked for Entry {
    fn links(&mut self) -> &mut Links {
        &mut self.links
    }
}

impl Chained for Entry {
    fn hash(&self) -> u32 {
        self.hash
    }

    fn next(&mut self) -> &mut u32 {
        &mut self.next
    }
}

impl Entry {
    fn is_of(&self, key: &[u8]) -> bool {
        usize::from(self.bytes[0]) == key.len() && self.bytes[1..].starts_with(key)
    }

    /// What stands behind a key of this length.
    fn value(&self, key: usize) -> &[u8] {
        &self.bytes[1 + key..]
    }
}

pub struct Boxes {
    chains: Chains,
    /// There is room for as many as there can be. What of it was never used takes no memory.
    entries: Vec<Entry>,
    /// Those that have a box. The oldest is evicted next.
    used: Order,
    /// The entries that have no box.
    unused: Order,
    /// What the boxes take.
    boxed: usize,
    limit: usize,
}

/// What the allocator takes for a box: its own eight bytes more, in steps of 16, and 32 at least (glibc's malloc).
fn allocated(bytes: usize) -> usize {
    (bytes + 8).next_multiple_of(16).max(32)
}

fn write(bytes: &mut [u8], key: &[u8], value: &[u8]) {
    let (length, rest) = bytes.split_first_mut().expect("a byte for the length");
    *length = key.len() as u8;
    let (own, room) = rest.split_at_mut(key.len());
    own.copy_from_slice(key);
    room.copy_from_slice(value);
}

fn boxed(key: &[u8], value: &[u8]) -> Box<[u8]> {
    let mut bytes = Vec::with_capacity(1 + key.len() + value.len());
    bytes.push(key.len() as u8);
    bytes.extend_from_slice(key);
    bytes.extend_from_slice(value);
    bytes.into_boxed_slice()
}

impl Boxes {
    fn taken(&self) -> usize {
        self.boxed + self.entries.len() * size_of::<Entry>() + self.chains.bytes()
    }

    fn find(&mut self, hash: u32, key: &[u8]) -> Option<u32> {
        self.chains.find(&mut self.entries, hash, |entry| entry.is_of(key))
    }

    /// The entry has no box any more.
    fn empty(&mut self, place: u32) {
        self.chains.take_out(&mut self.entries, place);
        let entry = &mut self.entries[place as usize];
        self.boxed -= allocated(entry.bytes.len());
        entry.bytes = Box::default();
        self.used.take_out(&mut self.entries, place);
        self.unused.push(&mut self.entries, place);
    }

    /// Evicts until so many bytes more are within the limit. False where they can't be.
    fn make_room(&mut self, bytes: usize) -> bool {
        while self.taken() + bytes > self.limit {
            let Some(oldest) = self.used.oldest() else {
                return false;
            };
            self.empty(oldest);
        }
        true
    }

    /// An entry without a box, in no list.
    fn entry(&mut self) -> u32 {
        if let Some(place) = self.unused.pop(&mut self.entries) {
            return place;
        }
        self.entries.push(Entry { hash: 0, next: 0, links: Links::NONE, bytes: Box::default() });
        self.entries.len() as u32 - 1
    }

    fn store_new(&mut self, hash: u32, key: &[u8], value: &[u8]) -> bool {
        let bytes = allocated(1 + key.len() + value.len());
        if !self.make_room(bytes) {
            return false;
        }
        let place = self.entry();
        let entry = &mut self.entries[place as usize];
        entry.hash = hash;
        entry.bytes = boxed(key, value);
        self.boxed += bytes;
        self.used.push(&mut self.entries, place);
        self.chains.put(&mut self.entries, place);
        self.make_room(0)
    }
}

impl Shard for Boxes {
    fn new(limit: usize) -> Boxes {
        let most = limit / (size_of::<Entry>() + allocated(1));
        Boxes { chains: Chains::new(), entries: Vec::with_capacity(most), used: Order::new(), unused: Order::new(), boxed: 0, limit }
    }

    fn set(&mut self, hash: u32, key: &[u8], value: &[u8]) -> bool {
        let Some(place) = self.find(hash, key) else {
            return self.store_new(hash, key, value);
        };
        let entry = &mut self.entries[place as usize];
        if entry.bytes.len() != 1 + key.len() + value.len() {
            self.empty(place);
            return self.store_new(hash, key, value);
        }
        write(&mut entry.bytes, key, value);
        self.used.bump(&mut self.entries, place);
        true
    }

    fn get(&mut self, hash: u32, key: &[u8], into: &mut Vec<u8>, touch: bool) -> bool {
        let Some(place) = self.find(hash, key) else {
            return false;
        };
        into.extend_from_slice(self.entries[place as usize].value(key.len()));
        if touch {
            self.used.bump(&mut self.entries, place);
        }
        true
    }

    fn delete(&mut self, hash: u32, key: &[u8]) {
        if let Some(place) = self.find(hash, key) {
            self.empty(place);
        }
    }
}

#[cfg(test)]
mod tests {
    use super::{allocated, Boxes};
    use crate::shards::Shard;

    #[test]
    fn counts_as_the_allocator_does() {
        assert_eq!([1, 24, 25, 40, 41].map(allocated), [32, 32, 48, 48, 64]);
    }

    #[test]
    fn stays_within_the_limit() {
        let mut shard = Boxes::new(20_000);
        for hash in 0..1_000_u32 {
            let value = vec![7; hash as usize % 500];
            assert!(shard.set(hash % 300, &hash.to_le_bytes(), &value));
            assert!(shard.taken() <= 20_000);
        }
        assert!(shard.chains.count() > 20);
    }

    #[test]
    fn refuses_what_has_no_room() {
        assert!(!Boxes::new(1_000).set(1, b"key", &[0; 1_000]));
    }
}
