//! Many small caches side by side, each behind a mutex of its own.
use crate::driver::{Store, HASH_KEY};
use crate::hashing::{choose_shard, KeyedHasher};
use std::sync::Mutex;

/// A cache for one thread at a time. It has the lower halves of its keys' hashes; the upper halves chose the shard.
pub trait Shard: Send {
    /// One that may take so many bytes.
    fn new(limit: usize) -> Self;

    /// False where there is no room for such a value.
    fn set(&mut self, hash: u32, key: &[u8], value: &[u8]) -> bool;

    /// Puts the value behind the bytes that are there. It may be made the one that is evicted last. False where the key has none.
    fn get(&mut self, hash: u32, key: &[u8], into: &mut Vec<u8>, touch: bool) -> bool;

    /// The key has no value any more.
    fn delete(&mut self, hash: u32, key: &[u8]);
}

/// So that no two mutexes share a line of the cache, or a pair of lines.
#[repr(align(128))]
struct Apart<S>(Mutex<S>);

pub struct Shards<S> {
    shards: Box<[Apart<S>]>,
    hashing: KeyedHasher,
}

impl<S: Shard> Shards<S> {
    fn call<T>(&self, key: &[u8], call: impl FnOnce(&mut S, u32) -> T) -> T {
        let hash = self.hashing.hash(key);
        let shard = &self.shards[choose_shard(self.shards.len(), hash)];
        call(&mut shard.0.lock().expect("a thread panicked in the shard"), hash as u32)
    }
}

impl<S: Shard> Store for Shards<S> {
    type Worker = ();

    fn open(shards: u64, shard_bytes: u64, workers: u64) -> (Shards<S>, Vec<()>) {
        let shards = (0..shards).map(|_| Apart(Mutex::new(S::new(shard_bytes as usize)))).collect();
        let hashing = KeyedHasher::new(HASH_KEY.0, HASH_KEY.1);
        (Shards { shards, hashing }, vec![(); workers as usize])
    }

    fn set(&self, _worker: &mut (), key: &[u8], value: &[u8]) -> bool {
        self.call(key, |shard, hash| shard.set(hash, key, value))
    }

    fn get(&self, _worker: &mut (), key: &[u8], into: &mut Vec<u8>, touch: bool) -> bool {
        self.call(key, |shard, hash| shard.get(hash, key, into, touch))
    }

    fn delete(&self, _worker: &mut (), key: &[u8]) {
        self.call(key, |shard, hash| shard.delete(hash, key));
    }
}

#[cfg(test)]
mod tests {
    use super::Apart;

    #[test]
    fn stand_apart() {
        assert_eq!(size_of::<Apart<u64>>(), 128);
        assert_eq!(align_of::<Apart<u64>>(), 128);
    }
}
