//! The work that is timed, of any cache. The command line has the numbers of shards, of a shard's pages, of keys and of threads, and how many bytes values
//! have in the first half of the calls and in the second; standard input has the calls, of four bytes each.
mod calls;
mod trace;

use calls::{fill, held, work, Tally, PARTS};
use std::io::Read;
use std::sync::Barrier;
use std::thread;
use std::time::Instant;
use trace::Trace;

/// What a page of a shard takes.
const PAGE_BYTES: u64 = 1 << 14;

/// What keys are hashed with.
pub const HASH_KEY: (u64, u64) = (0x243f_6a88_85a3_08d3, 0x1319_8a2e_0370_7344);

/// A cache that threads share.
pub trait Store: Sized + Sync {
    type Worker: Send;

    /// Of so many shards of so many bytes, with so many workers.
    fn open(shards: u64, shard_bytes: u64, workers: u64) -> (Self, Vec<Self::Worker>);

    /// False where it was refused.
    fn set(&self, worker: &mut Self::Worker, key: &[u8], value: &[u8]) -> bool;

    /// Puts the value behind the bytes that are there, and may make it the one that is evicted last. False where the key has none.
    fn get(&self, worker: &mut Self::Worker, key: &[u8], into: &mut Vec<u8>, touch: bool) -> bool;

    fn delete(&self, worker: &mut Self::Worker, key: &[u8]);
}

/// The numbers of the command line.
pub struct Setting {
    pub shards: u64,
    /// What the pages of a shard take.
    pub shard_bytes: u64,
    pub keys: u64,
    pub threads: u64,
    /// How many bytes values have at first, and then.
    pub sizes: [usize; 2],
}

fn setting() -> Setting {
    let numbers: Vec<u64> = std::env::args().skip(1).map(|word| word.parse().expect("a number")).collect();
    let [shards, pages, keys, threads, first, second] = numbers[..] else {
        panic!("SHARDS PAGES KEYS THREADS FIRST SECOND, and calls at standard input");
    };
    Setting { shards, shard_bytes: pages * PAGE_BYTES, keys, threads, sizes: [first as usize, second as usize] }
}

/// The calls of all threads, behind which it says what each part of them found.
fn run<S: Store>(setting: &Setting, trace: &Trace) {
    let (store, mut workers) = S::open(setting.shards, setting.shard_bytes, setting.threads + 1);
    let mut own = workers.pop().expect("a worker");
    fill(&store, &mut own, setting);
    let tallies = work_at_once(&store, workers, setting, trace);
    show(&tallies);
    let (items, bytes) = held(&store, &mut own, setting);
    println!("held {items} {bytes}");
}

/// A thread for each worker. The first of them is this one, so that one thread alone has one heap.
fn work_at_once<S: Store>(store: &S, workers: Vec<S::Worker>, setting: &Setting, trace: &Trace) -> Vec<Tally> {
    let (meeting, started) = (&Barrier::new(workers.len()), Instant::now());
    let part = |(place, worker)| move || work(store, worker, setting, trace.of_thread(place, setting.threads), meeting, started);
    let mut parts = (0..).zip(workers).map(part);
    let first = parts.next();
    thread::scope(|scope| {
        let others: Vec<_> = parts.map(|part| scope.spawn(part)).collect();
        let own = first.map(|part| part());
        own.into_iter().chain(others.into_iter().map(|other| other.join().expect("a thread's calls"))).collect()
    })
}

fn show(tallies: &[Tally]) {
    let longest = |one: fn(&Tally) -> u128| tallies.iter().map(one).max().unwrap_or(0);
    let calls: u64 = tallies.iter().flat_map(|tally| &tally.parts).map(|part| part.gets + part.sets).sum();
    println!("calls {} {calls}", longest(|tally| tally.took));
    println!("longest-get {}", longest(|tally| tally.longest_get));
    println!("longest-set {}", longest(|tally| tally.longest_set));
    for place in 0..PARTS {
        let sum = |one: fn(&calls::Part) -> u64| tallies.iter().map(|tally| one(&tally.parts[place])).sum::<u64>();
        let [gets, hits] = [sum(|part| part.gets), sum(|part| part.hits)];
        let [sets, refused, wrong] = [sum(|part| part.sets), sum(|part| part.refused), sum(|part| part.wrong)];
        println!("part {place} {gets} {hits} {sets} {refused} {wrong}");
    }
}

/// Does what the command line says. Without threads the calls are read, and nothing else is done.
pub fn main<S: Store>() {
    let setting = setting();
    let mut bytes = Vec::new();
    std::io::stdin().read_to_end(&mut bytes).expect("the calls");
    let trace = Trace::read(&bytes);
    drop(bytes);
    if setting.threads > 0 {
        run::<S>(&setting, &trace);
    }
}

/// Congruent numbers, of which the upper bits are used.
#[cfg(test)]
pub struct Numbers(u64);

#[cfg(test)]
impl Numbers {
    pub fn new(seed: u64) -> Numbers {
        Numbers(seed)
    }

    pub fn below(&mut self, bound: u64) -> u64 {
        self.0 = self.0.wrapping_mul(6_364_136_223_846_793_005).wrapping_add(1_442_695_040_888_963_407);
        (self.0 >> 33) % bound
    }
}
