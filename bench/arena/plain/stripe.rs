//! A stripe: the items of some keys, and the calls on them.
use crate::rows::ChunkId;
use std::collections::HashMap;
use std::hash::{BuildHasherDefault, Hasher};

/// One multiplication, whose halves are put together.
#[derive(Default)]
pub struct Folded(u64);

impl Hasher for Folded {
    fn write(&mut self, bytes: &[u8]) {
        for byte in bytes {
            self.write_u64(u64::from(*byte));
        }
    }

    fn write_u64(&mut self, number: u64) {
        let product = u128::from(self.0 ^ number ^ 0x243f_6a88_85a3_08d3) * 0x9e37_79b9_7f4a_7c15;
        self.0 = product as u64 ^ (product >> 64) as u64;
    }

    fn finish(&self) -> u64 {
        self.0
    }
}

/// A call and its reply, with the hand's number and the key. Nothing here reads what they say.
#[allow(dead_code)]
enum Call {
    Set(u64, u64, u64),
    Get(u64, u64, Option<u64>),
    Delete(u64, u64, bool),
    Evict(u64, u64),
    Rescue(u64, u64),
}

/// An item's chunk and stamp.
type Place = (ChunkId, u64);

#[derive(Default)]
pub struct Stripe {
    index: HashMap<u64, Place, BuildHasherDefault<Folded>>,
    history: Vec<Call>,
}

impl Stripe {
    pub fn find(&self, key: u64) -> Option<Place> {
        self.index.get(&key).copied()
    }

    /// With room for one more item and call.
    pub fn reserve(&mut self) {
        self.index.reserve(1);
        self.history.reserve(1);
    }

    /// The key leads to an item. Gives what it led to before.
    pub fn link(&mut self, hand: u64, key: u64, chunk: ChunkId, stamp: u64) -> Option<Place> {
        self.history.push(Call::Set(hand, key, stamp));
        self.index.insert(key, (chunk, stamp))
    }

    /// The key leads nowhere. Gives what it led to.
    pub fn unlink(&mut self, hand: u64, key: u64) -> Option<Place> {
        let found = self.index.remove(&key);
        self.history.push(Call::Delete(hand, key, found.is_some()));
        found
    }

    /// A get of the key found this.
    pub fn got(&mut self, hand: u64, key: u64, found: Option<Place>) {
        self.history.push(Call::Get(hand, key, found.map(|(_, stamp)| stamp)));
    }

    pub fn evict(&mut self, hand: u64, key: u64) {
        self.index.remove(&key);
        self.history.push(Call::Evict(hand, key));
    }

    /// The key's item is in another chunk.
    pub fn rescue(&mut self, hand: u64, key: u64, place: Place) {
        self.index.insert(key, place);
        self.history.push(Call::Rescue(hand, key));
    }
}
