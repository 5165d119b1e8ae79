//! A plain cache of slabs whose pages never move: what is lost where the values' sizes change. With `--cfg words` its pages are words that threads
//! share, each stored by a step of its own: what such words cost, with all else the same.
// What the chains take is counted by boxes alone.
#[allow(dead_code)]
#[path = "plain/chains.rs"]
mod chains;
mod driver;
#[path = "plain/hashing.rs"]
mod hashing;
#[path = "plain/order.rs"]
mod order;
#[path = "plain/pages.rs"]
mod pages;
#[path = "plain/shards.rs"]
mod shards;
#[path = "plain/slabs.rs"]
mod slabs;
#[cfg(test)]
#[path = "plain/tests.rs"]
mod tests;

use shards::Shards;

#[cfg(not(words))]
type Slabs = slabs::Slabs<Box<[u8]>>;
#[cfg(words)]
type Slabs = slabs::Slabs<Box<[std::sync::atomic::AtomicU64]>>;

fn main() {
    driver::main::<Shards<Slabs>>();
}

#[cfg(test)]
mod drawn {
    use super::Slabs;

    #[test]
    fn answers_as_a_map_does() {
        crate::tests::answers_as_a_map_does::<Slabs>();
    }

    #[test]
    fn evicts_what_was_used_first() {
        crate::tests::evicts_what_was_used_first::<Slabs>();
    }

    #[test]
    fn keeps_keys_of_one_hash_apart() {
        crate::tests::keeps_keys_of_one_hash_apart::<Slabs>();
    }
}
