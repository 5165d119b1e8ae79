//! What each shard has to do, by drawn calls.
use crate::driver::{Numbers, Store};
use crate::shards::{Shard, Shards};
use std::collections::HashMap;

/// What is found is what was stored last; what isn't may have been evicted.
pub fn answers_as_a_map_does<S: Shard>() {
    let (store, _) = Shards::<S>::open(4, 65_536, 1);
    let (mut model, mut numbers, mut found) = (HashMap::new(), Numbers::new(1), 0);
    for _ in 0..200_000 {
        let key = numbers.below(2_000).to_le_bytes();
        if numbers.below(20) == 0 {
            store.delete(&mut (), &key);
            model.remove(&key);
        } else if numbers.below(2) == 0 {
            let value = vec![numbers.below(256) as u8; numbers.below(300) as usize];
            if store.set(&mut (), &key, &value) {
                model.insert(key, value);
            }
        } else {
            let mut into = vec![1, 2];
            let touch = numbers.below(2) == 0;
            if store.get(&mut (), &key, &mut into, touch) {
                assert_eq!(into[2..], model[&key]);
                found += 1;
            }
        }
    }
    assert!(found > 20_000);
}

/// The key of a get that touches stays longer than the others that were stored with it.
pub fn evicts_what_was_used_first<S: Shard>() {
    let mut shard = S::new(65_536);
    let set = |shard: &mut S, hash: u32| assert!(shard.set(hash, &hash.to_le_bytes(), &[7; 100]));
    let get = |shard: &mut S, hash: u32, touch| shard.get(hash, &hash.to_le_bytes(), &mut Vec::new(), touch);
    (0..200).for_each(|hash| set(&mut shard, hash));
    assert!(get(&mut shard, 0, true) && get(&mut shard, 1, false));
    let mut hash = 200;
    while get(&mut shard, 1, false) {
        set(&mut shard, hash);
        hash += 1;
    }
    assert!(get(&mut shard, 0, false) && get(&mut shard, 2, false) && hash < 1_000);
}

pub fn keeps_keys_of_one_hash_apart<S: Shard>() {
    let mut shard = S::new(65_536);
    let mut into = Vec::new();
    assert!(shard.set(9, b"one", b"first") && !shard.get(9, b"two", &mut into, true));
    assert!(shard.set(9, b"two", b"second") && shard.get(9, b"one", &mut into, true));
    shard.delete(9, b"one");
    assert!(!shard.get(9, b"one", &mut into, true) && shard.get(9, b"two", &mut into, true));
    assert_eq!(into, b"firstsecond");
}
