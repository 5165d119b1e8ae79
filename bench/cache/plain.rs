//! The best plain sharded cache: a mutex, a hash map and a list in the order of use for each shard, and values in boxes.
#[path = "plain/boxes.rs"]
mod boxes;
#[path = "plain/chains.rs"]
mod chains;
mod driver;
#[path = "plain/hashing.rs"]
mod hashing;
#[path = "plain/order.rs"]
mod order;
#[path = "plain/shards.rs"]
mod shards;
#[cfg(test)]
#[path = "plain/tests.rs"]
mod tests;

use boxes::Boxes;
use shards::Shards;

fn main() {
    driver::main::<Shards<Boxes>>();
}

#[cfg(test)]
mod drawn {
    use super::Boxes;

    #[test]
    fn answers_as_a_map_does() {
        crate::tests::answers_as_a_map_does::<Boxes>();
    }

    #[test]
    fn evicts_what_was_used_first() {
        crate::tests::evicts_what_was_used_first::<Boxes>();
    }

    #[test]
    fn keeps_keys_of_one_hash_apart() {
        crate::tests::keeps_keys_of_one_hash_apart::<Boxes>();
    }
}
