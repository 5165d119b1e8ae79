//! What all connections share: workers of the cache, its pages, and their counts.
use crate::counts::{self, Counts};
use crate::options::Options;
use crate::pages::Pages;
use noddrefil::{Cache, Config, Error, Worker};
use std::collections::hash_map::RandomState;
use std::hash::BuildHasher;
use std::process;
use std::sync::atomic::{AtomicU32, AtomicU64, Ordering::Relaxed};
use std::sync::{Arc, Mutex, MutexGuard, PoisonError};
use std::time::{Instant, SystemTime};

/// The bytes of a page, and so the most that an item has with its head.
pub const PAGE: usize = 16_384;

pub struct Shared {
    workers: Vec<Mutex<Worker>>,
    pub counts: Vec<Counts>,
    pub pages: Mutex<Pages>,
    /// The unique number of the last store.
    pub unique: AtomicU64,
    /// The highest unique number that a flush took.
    pub flushed: AtomicU64,
    /// The second of the next flush, or 0.
    pub next_flush: AtomicU32,
    /// Each open connection has a clone.
    pub open: Arc<()>,
    bytes: u64,
    began: Instant,
}

impl Shared {
    pub fn new(options: &Options) -> Result<Shared, Error> {
        let hasher = RandomState::new();
        let config = Config::for_bytes(options.bytes, options.usual_item, options.workers)?;
        let cache = Cache::open(&config.with_hash_key(hasher.hash_one(1), hasher.hash_one(2)))?;
        Ok(Shared {
            workers: (0..options.workers).map(|_| cache.worker().map(Mutex::new)).collect::<Result<_, _>>()?,
            counts: (0..options.workers).map(|_| Counts::default()).collect(),
            pages: Mutex::new(Pages::new(cache.tender().expect("nobody took it"), config.shards())),
            unique: AtomicU64::new(0),
            flushed: AtomicU64::new(0),
            next_flush: AtomicU32::new(0),
            open: Arc::new(()),
            bytes: options.bytes,
            began: Instant::now(),
        })
    }

    /// A worker that no other connection has, for the connection of this number. Where all are taken, it waits for one.
    pub fn worker(&self, number: usize) -> MutexGuard<'_, Worker> {
        let (before, behind) = self.workers.split_at(number % self.workers.len());
        let free = behind.iter().chain(before).find_map(|worker| worker.try_lock().ok());
        free.unwrap_or_else(|| lock(&behind[0]))
    }

    /// Does the flush whose second has come: all that was stored before is gone.
    pub fn settle_flush(&self) {
        let second = self.next_flush.load(Relaxed);
        if (1..=now()).contains(&second) && self.next_flush.compare_exchange(second, 0, Relaxed, Relaxed).is_ok() {
            self.flushed.fetch_max(self.unique.load(Relaxed), Relaxed);
        }
    }

    /// The lines of `stats`.
    pub fn lines(&self) -> String {
        let (uptime, open) = (self.began.elapsed().as_secs(), Arc::strong_count(&self.open) - 1);
        let head = format!("STAT pid {}\r\nSTAT uptime {uptime}\r\nSTAT time {}\r\nSTAT version {}", process::id(), now(), env!("CARGO_PKG_VERSION"));
        let foot = format!("STAT limit_maxbytes {}\r\nSTAT threads {}\r\nEND", self.bytes, self.workers.len());
        format!("{head}\r\nSTAT curr_connections {open}\r\n{}{foot}", counts::lines(&self.counts))
    }
}

/// The second since 1970.
pub fn now() -> u32 {
    SystemTime::UNIX_EPOCH.elapsed().map_or(1, |time| u32::try_from(time.as_secs()).unwrap_or(u32::MAX))
}

/// Locks it. A thread that panicked left nothing half done that another one would see.
pub fn lock<T>(mutex: &Mutex<T>) -> MutexGuard<'_, T> {
    mutex.lock().unwrap_or_else(PoisonError::into_inner)
}
