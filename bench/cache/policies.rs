//! How many gets hit under published policies of eviction, on the calls that `bench/cache/run` draws. A cache here has keys alone, so many at most.
//!
//!     policies ITEMS KEYS
//!
//! The calls come at standard input, as the other programs read them. A line has a policy, and the gets and hits of each of eight tenths of the calls.
//!
//! - `use`: the order of use. The key that was used longest ago goes.
//! - `s3-fifo`: a small queue of new keys, a main queue, and a queue of keys that went. (Yang and others, SOSP 2023)
//! - `w-tinylfu`: a window of new keys, and a main part in two segments that a key enters where it was asked for more often than the one that
//!   would go. (Einziger, Friedman and Manes, 2017) Uses are counted exactly here, where the published cache estimates them.
#[allow(dead_code)]
#[path = "driver/trace.rs"]
mod trace;

mod calls {
    /// The calls are counted in so many parts, of which the first eight have the hits.
    pub const TENTHS: usize = 10;
}

use std::collections::{HashMap, VecDeque};
use std::io::Read;
use trace::{call_of, Call, Trace};

const PARTS: usize = 8;

/// What decides which keys stay.
trait Policy {
    /// A get of the key: whether it is there.
    fn get(&mut self, key: u64) -> bool;

    /// A set of the key, which is there then, or isn't let in.
    fn set(&mut self, key: u64);
}

/// A queue of keys without holes: a key that was moved or taken out leaves its old place behind, which is passed over.
#[derive(Default)]
struct Queue {
    places: VecDeque<(u64, u64)>,
    newest: HashMap<u64, u64>,
    count: u64,
}

impl Queue {
    fn len(&self) -> usize {
        self.newest.len()
    }

    fn has(&self, key: u64) -> bool {
        self.newest.contains_key(&key)
    }

    /// Puts the key at the end, from wherever it was.
    fn push(&mut self, key: u64) {
        self.count += 1;
        self.newest.insert(key, self.count);
        self.places.push_back((key, self.count));
    }

    fn remove(&mut self, key: u64) -> bool {
        self.newest.remove(&key).is_some()
    }

    /// The key that is first.
    fn first(&mut self) -> Option<u64> {
        while let Some((key, count)) = self.places.front() {
            if self.newest.get(key) == Some(count) {
                return Some(*key);
            }
            self.places.pop_front();
        }
        None
    }

    fn pop(&mut self) -> Option<u64> {
        let key = self.first()?;
        self.remove(key);
        Some(key)
    }
}

/// The order of use.
struct OrderOfUse {
    items: usize,
    queue: Queue,
}

impl Policy for OrderOfUse {
    fn get(&mut self, key: u64) -> bool {
        let is_there = self.queue.has(key);
        if is_there {
            self.queue.push(key);
        }
        is_there
    }

    fn set(&mut self, key: u64) {
        self.queue.push(key);
        if self.queue.len() > self.items {
            self.queue.pop();
        }
    }
}

/// S3-FIFO: a tenth of the keys are in the small queue.
struct S3Fifo {
    items: usize,
    small: Queue,
    main: Queue,
    ghosts: Queue,
    /// How often each key was asked for, up to three times.
    uses: HashMap<u64, u8>,
}

impl S3Fifo {
    fn new(items: usize) -> S3Fifo {
        S3Fifo { items, small: Queue::default(), main: Queue::default(), ghosts: Queue::default(), uses: HashMap::new() }
    }

    fn note_use(&mut self, key: u64) -> bool {
        let is_there = self.small.has(key) || self.main.has(key);
        if is_there {
            let uses = self.uses.entry(key).or_insert(0);
            *uses = (*uses + 1).min(3);
        }
        is_there
    }

    fn uses_of(&self, key: u64) -> u8 {
        self.uses.get(&key).copied().unwrap_or(0)
    }

    /// Lets one key go.
    fn evict(&mut self) {
        while self.small.len() >= self.items / 10 {
            let Some(key) = self.small.pop() else { break };
            if self.uses_of(key) > 1 {
                self.uses.insert(key, 0);
                self.main.push(key);
                continue;
            }
            self.uses.remove(&key);
            self.ghosts.push(key);
            if self.ghosts.len() > self.items - self.items / 10 {
                self.ghosts.pop();
            }
            return;
        }
        while let Some(key) = self.main.pop() {
            let uses = self.uses_of(key);
            if uses == 0 {
                self.uses.remove(&key);
                return;
            }
            self.uses.insert(key, uses - 1);
            self.main.push(key);
        }
    }
}

impl Policy for S3Fifo {
    fn get(&mut self, key: u64) -> bool {
        self.note_use(key)
    }

    fn set(&mut self, key: u64) {
        if self.note_use(key) {
            return;
        }
        if self.small.len() + self.main.len() >= self.items {
            self.evict();
        }
        if self.ghosts.remove(key) {
            self.main.push(key);
        } else {
            self.small.push(key);
        }
    }
}

/// W-TinyLFU: a hundredth of the keys are in the window, and four fifths of the others in the protected segment.
struct TinyLfu {
    items: usize,
    window: Queue,
    trial: Queue,
    protected: Queue,
    uses: HashMap<u64, u8>,
    counted: usize,
}

impl TinyLfu {
    fn new(items: usize) -> TinyLfu {
        TinyLfu { items, window: Queue::default(), trial: Queue::default(), protected: Queue::default(), uses: HashMap::new(), counted: 0 }
    }

    fn main_items(&self) -> usize {
        self.items - self.items / 100
    }

    /// Counts a use, up to fifteen. Behind ten uses a key, all counts are halved.
    fn count_use(&mut self, key: u64) {
        let uses = self.uses.entry(key).or_insert(0);
        *uses = (*uses + 1).min(15);
        self.counted += 1;
        if self.counted >= 10 * self.items {
            self.counted = 0;
            self.uses.retain(|_, uses| {
                *uses /= 2;
                *uses > 0
            });
        }
    }

    /// Moves the key to the end of its segment, or from the trial segment to the protected one.
    fn touch(&mut self, key: u64) -> bool {
        if self.window.has(key) {
            self.window.push(key);
        } else if self.protected.has(key) {
            self.protected.push(key);
        } else if self.trial.remove(key) {
            self.protected.push(key);
            if self.protected.len() > self.main_items() * 4 / 5 {
                if let Some(oldest) = self.protected.pop() {
                    self.trial.push(oldest);
                }
            }
        } else {
            return false;
        }
        true
    }

    /// Lets the key into the main part, where it was asked for more often than the one that would go.
    fn admit(&mut self, key: u64) {
        if self.trial.len() + self.protected.len() >= self.main_items() {
            let uses = |key: Option<u64>| key.and_then(|key| self.uses.get(&key)).copied().unwrap_or(0);
            let oldest = self.trial.first();
            if uses(Some(key)) <= uses(oldest) {
                return;
            }
            if self.trial.pop().is_none() {
                self.protected.pop();
            }
        }
        self.trial.push(key);
    }
}

impl Policy for TinyLfu {
    fn get(&mut self, key: u64) -> bool {
        self.count_use(key);
        self.touch(key)
    }

    fn set(&mut self, key: u64) {
        self.count_use(key);
        if self.touch(key) {
            return;
        }
        self.window.push(key);
        if self.window.len() > (self.items / 100).max(1) {
            if let Some(oldest) = self.window.pop() {
                self.admit(oldest);
            }
        }
    }
}

/// Stores each key, the ones that are drawn most often last, and then makes the calls. A part is its gets and hits.
fn parts_of(policy: &mut dyn Policy, keys: u64, calls: &[u32]) -> [(u64, u64); PARTS] {
    (0..keys).rev().for_each(|key| policy.set(key));
    let tenth = calls.len() / calls::TENTHS;
    let mut parts = [(0, 0); PARTS];
    for (place, (gets, hits)) in parts.iter_mut().enumerate() {
        for number in &calls[place * tenth..][..tenth] {
            let (key, call) = call_of(*number);
            if call == Call::Set {
                policy.set(key);
                continue;
            }
            *gets += 1;
            if policy.get(key) {
                *hits += 1;
            } else if call == Call::GetOrSet {
                policy.set(key);
            }
        }
    }
    parts
}

fn main() {
    let numbers: Vec<u64> = std::env::args().skip(1).map(|word| word.parse().expect("a number")).collect();
    let [items, keys] = numbers[..] else { panic!("ITEMS KEYS, and calls at standard input") };
    let mut bytes = Vec::new();
    std::io::stdin().read_to_end(&mut bytes).expect("the calls");
    let trace = Trace::read(&bytes);
    let items = items as usize;
    let policies: [(&str, Box<dyn Policy>); 3] = [
        ("use", Box::new(OrderOfUse { items, queue: Queue::default() })),
        ("s3-fifo", Box::new(S3Fifo::new(items))),
        ("w-tinylfu", Box::new(TinyLfu::new(items))),
    ];
    for (name, mut policy) in policies {
        let parts = parts_of(policy.as_mut(), keys, trace.of_thread(0, 1));
        let texts: Vec<String> = parts.iter().map(|(gets, hits)| format!("{gets} {hits}")).collect();
        println!("{name} {}", texts.join(" "));
    }
}

#[cfg(test)]
mod tests {
    use super::{OrderOfUse, Policy, Queue, S3Fifo, TinyLfu};

    /// The keys that are there, of so many.
    fn there(policy: &mut dyn Policy, keys: u64) -> Vec<u64> {
        (0..keys).filter(|key| policy.get(*key)).collect()
    }

    #[test]
    fn the_order_of_use_lets_the_oldest_use_go() {
        let mut policy = OrderOfUse { items: 3, queue: Queue::default() };
        (0..3).for_each(|key| policy.set(key));
        assert!(policy.get(0));
        policy.set(3);
        assert_eq!(there(&mut policy, 5), [0, 2, 3]);
    }

    /// A scan passes through the small queue, and what was asked for twice stays.
    #[test]
    fn s3_fifo_keeps_what_was_asked_for_twice() {
        let mut policy = S3Fifo::new(20);
        (0..20).for_each(|key| policy.set(key));
        (0..10).for_each(|key| assert!(policy.get(key) && policy.get(key)));
        (100..300).for_each(|key| policy.set(key));
        assert_eq!(there(&mut policy, 20), (0..10).collect::<Vec<_>>());
    }

    /// A key that comes back soon behind its eviction is in the main queue.
    #[test]
    fn s3_fifo_lets_a_ghost_into_the_main_queue() {
        let mut policy = S3Fifo::new(20);
        (0..40).for_each(|key| policy.set(key));
        assert!(!policy.get(3));
        policy.set(3);
        assert!(policy.main.has(3) && !policy.small.has(3));
    }

    #[test]
    fn tiny_lfu_keeps_what_is_asked_for_more_often() {
        let mut policy = TinyLfu::new(20);
        (0..20).for_each(|key| policy.set(key));
        (0..19).for_each(|key| assert!(policy.get(key)));
        (100..300).for_each(|key| policy.set(key));
        assert_eq!(there(&mut policy, 19), (0..19).collect::<Vec<_>>());
    }
}
