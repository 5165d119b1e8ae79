//! The hash of a key, and its shard.
use std::hash::{DefaultHasher, Hasher};

/// A hasher that was started with two numbers, which go before each key.
#[derive(Clone)]
pub struct KeyedHasher(DefaultHasher);

impl KeyedHasher {
    pub fn new(first: u64, second: u64) -> KeyedHasher {
        let mut hasher = DefaultHasher::new();
        hasher.write_u64(first);
        hasher.write_u64(second);
        KeyedHasher(hasher)
    }

    /// SipHash-1-3 of the two numbers and then of the key.
    pub fn hash(&self, key: &[u8]) -> u64 {
        let mut hasher = self.0.clone();
        hasher.write(key);
        hasher.finish()
    }
}

/// Which of so many shards has the keys of this hash: its upper half says so.
pub fn choose_shard(shards: usize, hash: u64) -> usize {
    ((hash >> 32) * shards as u64 >> 32) as usize
}

#[cfg(test)]
mod tests {
    use super::{choose_shard, KeyedHasher};

    #[test]
    fn depends_on_each_number() {
        let hash = |first, second| KeyedHasher::new(first, second).hash(b"key");
        assert_ne!(hash(1, 2), hash(1, 3));
        assert_ne!(hash(1, 2), hash(3, 2));
    }

    #[test]
    fn has_a_shard_for_each_hash() {
        let shards: Vec<usize> = [0, 1 << 62, 1 << 63, u64::MAX].iter().map(|hash| choose_shard(4, *hash)).collect();
        assert_eq!(shards, [0, 1, 2, 3]);
        assert_eq!(choose_shard(1, u64::MAX), 0);
    }
}
