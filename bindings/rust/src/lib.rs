//! A cache of bytes that threads share, over a verified slab memory.
//!
//! [`Cache::open`] makes a cache. Each thread takes a [`Worker`] of its own from it, and stores and reads by the worker. A call that meets
//! another thread's lock tries some times, then lets other threads run, and tries again.
//!
//! Items of one size lie in pages of memory of their own. The cache's [`Tender`] moves pages to the sizes that are asked for: a thread of its
//! own calls [`Tender::tend`] about once a second. Without that, a page stays with the size that took it first.
//!
//! ```
//! use noddrefil::{Cache, Config};
//!
//! let config = Config::for_bytes(16 << 20, 100, 2)?.with_hash_key(1, 2);
//! let cache = Cache::open(&config)?;
//! let (mut one, mut other) = (cache.worker()?, cache.worker()?);
//! let mut value = Vec::new();
//! std::thread::scope(|scope| {
//!     scope.spawn(move || one.set(b"greeting", b"hello").unwrap()).join().unwrap();
//! });
//! assert!(other.get(b"greeting", &mut value)?);
//! assert_eq!(value, b"hello");
//! # Ok::<(), noddrefil::Error>(())
//! ```
#![warn(missing_docs)]

mod raw;

use raw::Handle;
pub use raw::{ClassStats, Tended, Totals};
use std::fmt;
use std::sync::Mutex;
use std::thread;

/// How often a call tries for a lock before it lets other threads run.
const TRIES: u64 = 64;

/// The room for a value that a first get offers.
const FIRST_ROOM: usize = 1024;

/// The room for classes that a first look at all of them offers.
const FIRST_CLASSES: usize = 64;

/// Why a call was refused.
#[derive(Clone, Copy, Debug, PartialEq, Eq)]
pub enum Error {
    /// No chunk has room for the key and the value.
    TooLarge,
    /// Nothing could be evicted.
    NoRoom,
    /// The worker has stored 2^48 values: take another one.
    WornOut,
    /// The allocator returned no memory. The key has what it had.
    NoMemory,
    /// All workers were given out.
    NoWorkers,
    /// A key has from 1 to 250 bytes.
    BadKey,
    /// A page of the shard moves already.
    Busy,
    /// There is no such class, or none can be picked.
    BadClass,
    /// The source has fewer than two pages.
    NoSpare,
    /// Source and destination are one class.
    SameClass,
    /// There is no such shard, or no such mode.
    OutOfRange,
    /// The configuration is refused: the code of noddrefil.h.
    Config(u32),
}

impl fmt::Display for Error {
    fn fmt(&self, to: &mut fmt::Formatter<'_>) -> fmt::Result {
        match self {
            Error::TooLarge => to.write_str("no chunk has room for the key and the value"),
            Error::NoRoom => to.write_str("nothing could be evicted"),
            Error::WornOut => to.write_str("the worker has stored 2^48 values"),
            Error::NoMemory => to.write_str("out of memory; the key has what it had"),
            Error::NoWorkers => to.write_str("all workers were given out"),
            Error::BadKey => to.write_str("a key must have from 1 to 250 bytes"),
            Error::Busy => to.write_str("a page of the shard moves already"),
            Error::BadClass => to.write_str("there is no such class"),
            Error::NoSpare => to.write_str("the source has fewer than two pages"),
            Error::SameClass => to.write_str("source and destination are one class"),
            Error::OutOfRange => to.write_str("there is no such shard or mode"),
            Error::Config(code) => write!(to, "the configuration is refused with code {code} of noddrefil.h"),
        }
    }
}

impl std::error::Error for Error {}

/// What a call of the library returned, if it was no refusal.
#[derive(PartialEq, Eq)]
enum Answer {
    Done,
    Missing,
    Held,
    TooSmall,
    Exists,
}

fn answer(code: u32) -> Result<Answer, Error> {
    match code {
        0 => Ok(Answer::Done),
        1 => Ok(Answer::Missing),
        2 => Ok(Answer::Held),
        7 => Ok(Answer::TooSmall),
        27 => Ok(Answer::Exists),
        3 => Err(Error::TooLarge),
        4 => Err(Error::NoRoom),
        5 => Err(Error::WornOut),
        6 => Err(Error::NoMemory),
        8 => Err(Error::NoWorkers),
        10 => Err(Error::BadKey),
        11 => Err(Error::Busy),
        12 => Err(Error::BadClass),
        13 => Err(Error::NoSpare),
        14 => Err(Error::SameClass),
        15 => Err(Error::OutOfRange),
        9 => unreachable!("each handle is open until it is dropped"),
        code => Err(Error::Config(code)),
    }
}

/// Calls again while another thread has a lock.
fn until_done(mut call: impl FnMut() -> u32) -> Result<Answer, Error> {
    loop {
        match answer(call())? {
            Answer::Held => thread::yield_now(),
            done => return Ok(done),
        }
    }
}

/// What a cache is made with.
#[derive(Clone, Copy, Debug)]
pub struct Config {
    raw: raw::Config,
    workers: u64,
}

impl Config {
    /// A cache that takes at most this many bytes, for items of which most have `usual_item` bytes of key and value, and for 1 to 62 workers.
    pub fn for_bytes(bytes: u64, usual_item: u64, workers: u64) -> Result<Config, Error> {
        let mut raw = raw::Config::default();
        // The cache keeps one worker, by which the others join.
        let workers = workers.saturating_add(1);
        answer(unsafe { raw::mc_config_for_bytes(&mut raw, bytes, usual_item, workers) })?;
        Ok(Config { raw, workers })
    }

    /// The same with the two numbers that keys are hashed with. Where others choose the keys, draw them at random.
    pub fn with_hash_key(mut self, first: u64, second: u64) -> Config {
        self.raw.hash_first = first;
        self.raw.hash_second = second;
        self
    }

    /// How many shards the cache has. Each has pages of its own.
    pub fn shards(&self) -> u64 {
        self.raw.shards
    }

    /// How many bytes the cache asks the allocator for and keeps.
    pub fn bytes(&self) -> Result<u64, Error> {
        let mut bytes = 0;
        answer(unsafe { raw::mc_bytes(&self.raw, self.workers, &mut bytes) })?;
        Ok(bytes)
    }
}

/// A cache. Its memory is freed once it, its tender and all its workers are dropped.
pub struct Cache {
    first: Mutex<Handle>,
    tender: Mutex<Option<Handle>>,
}

impl Cache {
    /// A cache in which nothing is stored.
    pub fn open(config: &Config) -> Result<Cache, Error> {
        let (mut first, mut tender) = (Handle::CLOSED, Handle::CLOSED);
        answer(unsafe { raw::mc_open(&config.raw, config.workers, &mut first, &mut tender) })?;
        Ok(Cache {
            first: Mutex::new(first),
            tender: Mutex::new(Some(tender)),
        })
    }

    /// A worker for one thread. `NoWorkers` where all were given out; a dropped worker doesn't come back.
    pub fn worker(&self) -> Result<Worker, Error> {
        let mut handle = Handle::CLOSED;
        let mut first = self.first.lock().unwrap_or_else(|broken| broken.into_inner());
        answer(unsafe { raw::mc_join(&mut *first, &mut handle) })?;
        Ok(Worker { handle })
    }

    /// The tender. A cache has one: `None` where it was taken before.
    pub fn tender(&self) -> Option<Tender> {
        let mut tender = self.tender.lock().unwrap_or_else(|broken| broken.into_inner());
        tender.take().map(|handle| Tender { handle })
    }
}

/// What one thread stores and reads with.
pub struct Worker {
    handle: Handle,
}

/// What a call did that stores a value in place of one version.
#[derive(Clone, Copy, Debug, PartialEq, Eq)]
#[must_use = "the value isn't stored unless this is `Stored`"]
pub enum Swap {
    /// The value is stored.
    Stored,
    /// The key's value has another version. The key has what it had.
    Exists,
    /// The key has no value.
    Missing,
}

/// What a delete of one version did.
#[derive(Clone, Copy, Debug, PartialEq, Eq)]
pub enum Deletion {
    /// The value is deleted.
    Deleted,
    /// The key's value has another version. The key has what it had.
    Exists,
    /// The key has no value.
    Missing,
}

impl Worker {
    /// Puts the key's value behind the bytes that are there, and returns whether the key has one.
    pub fn get(&mut self, key: &[u8], into: &mut Vec<u8>) -> Result<bool, Error> {
        read(into, |out, room, len| unsafe { raw::mc_get(&mut self.handle, key.as_ptr(), key.len(), TRIES, out, room, len) })
    }

    /// Puts the key's value behind the bytes that are there, and returns its version, or `None` where the key has no value. A version is the
    /// number of the store that stored the value. No other store of the key ever has it.
    pub fn get_with_version(&mut self, key: &[u8], into: &mut Vec<u8>) -> Result<Option<u64>, Error> {
        let mut version = 0;
        let found = read(into, |out, room, len| unsafe {
            raw::mc_get_with_version(&mut self.handle, key.as_ptr(), key.len(), TRIES, out, room, len, &mut version)
        })?;
        Ok(found.then_some(version))
    }

    /// Stores the value under the key, in place of what the key had. Where no memory or no room is left for it, or it is too large, the old
    /// value is deleted.
    pub fn set(&mut self, key: &[u8], value: &[u8]) -> Result<(), Error> {
        until_done(|| unsafe { raw::mc_set(&mut self.handle, key.as_ptr(), key.len(), value.as_ptr(), value.len(), TRIES) })?;
        Ok(())
    }

    /// Stores the value under the key, in place of what the key had. Where it isn't stored, the old value stays, unless its item was among those
    /// that were evicted.
    pub fn set_or_keep(&mut self, key: &[u8], value: &[u8]) -> Result<(), Error> {
        until_done(|| unsafe { raw::mc_set_or_keep(&mut self.handle, key.as_ptr(), key.len(), value.as_ptr(), value.len(), TRIES) })?;
        Ok(())
    }

    /// Stores the value if the key has none, and returns whether it is stored. Of several threads that add one key, one alone stores.
    ///
    /// Where the key has a value, nothing is evicted for the new one.
    pub fn add(&mut self, key: &[u8], value: &[u8]) -> Result<bool, Error> {
        loop {
            let done = until_done(|| unsafe { raw::mc_add(&mut self.handle, key.as_ptr(), key.len(), value.as_ptr(), value.len(), TRIES) })?;
            // Where an item of another key with the same hash went behind the look, the answer is `Missing`.
            if done != Answer::Missing {
                return Ok(done == Answer::Done);
            }
        }
    }

    /// Stores the value if the key has one, and returns whether it is stored. The old value stays where there is no other room: `NoRoom`.
    pub fn replace(&mut self, key: &[u8], value: &[u8]) -> Result<bool, Error> {
        let done = until_done(|| unsafe { raw::mc_replace(&mut self.handle, key.as_ptr(), key.len(), value.as_ptr(), value.len(), TRIES) })?;
        Ok(done == Answer::Done)
    }

    /// Stores the value if the key's value has this version. A thread changes a value by this call, and no other thread's change is lost.
    ///
    /// ```
    /// use noddrefil::{Cache, Config, Swap};
    ///
    /// let cache = Cache::open(&Config::for_bytes(16 << 20, 100, 1)?.with_hash_key(1, 2))?;
    /// let mut worker = cache.worker()?;
    /// worker.set(b"list", b"one")?;
    /// let mut value = Vec::new();
    /// while let Some(version) = worker.get_with_version(b"list", &mut value)? {
    ///     value.extend_from_slice(b", two");
    ///     if worker.compare_and_set(b"list", &value, version)? == Swap::Stored {
    ///         break;
    ///     }
    ///     value.clear();
    /// }
    /// assert_eq!(value, b"one, two");
    /// # Ok::<(), noddrefil::Error>(())
    /// ```
    pub fn compare_and_set(&mut self, key: &[u8], value: &[u8], version: u64) -> Result<Swap, Error> {
        let done = until_done(|| unsafe {
            raw::mc_compare_and_set(&mut self.handle, key.as_ptr(), key.len(), value.as_ptr(), value.len(), version, TRIES)
        })?;
        Ok(match done {
            Answer::Done => Swap::Stored,
            Answer::Missing => Swap::Missing,
            _ => Swap::Exists,
        })
    }

    /// Deletes the key, and returns whether it had a value.
    pub fn delete(&mut self, key: &[u8]) -> Result<bool, Error> {
        let done = until_done(|| unsafe { raw::mc_delete(&mut self.handle, key.as_ptr(), key.len(), TRIES) })?;
        Ok(done == Answer::Done)
    }

    /// Deletes the key's value where it has this version, so that a newer one stays.
    pub fn compare_and_delete(&mut self, key: &[u8], version: u64) -> Result<Deletion, Error> {
        let done = until_done(|| unsafe { raw::mc_compare_and_delete(&mut self.handle, key.as_ptr(), key.len(), version, TRIES) })?;
        Ok(match done {
            Answer::Done => Deletion::Deleted,
            Answer::Missing => Deletion::Missing,
            _ => Deletion::Exists,
        })
    }

    /// Makes the key's item the last one of its size to be evicted, and returns whether the key has a value.
    pub fn touch(&mut self, key: &[u8]) -> Result<bool, Error> {
        let done = until_done(|| unsafe { raw::mc_touch(&mut self.handle, key.as_ptr(), key.len(), TRIES) })?;
        Ok(done == Answer::Done)
    }

    /// Deletes every key of the cache while other workers go on. What was stored before the call began is gone. It returns how many keys it
    /// deleted, also in walks that found a lock held and began again.
    pub fn clear(&mut self) -> Result<u64, Error> {
        let mut all: u64 = 0;
        until_done(|| {
            let mut here = 0;
            let code = unsafe { raw::mc_clear(&mut self.handle, TRIES, &mut here) };
            all = all.saturating_add(here);
            code
        })?;
        Ok(all)
    }

    /// How many items the cache has, as a sum over its parts, of which it looks at one after another.
    pub fn len(&mut self) -> Result<u64, Error> {
        let mut count = 0;
        until_done(|| unsafe { raw::mc_len(&mut self.handle, TRIES, &mut count) })?;
        Ok(count)
    }

    /// The keys of the cache, in no order, while other workers go on. Each part of the cache is listed at once, and then each of its items is looked
    /// up: one that goes meanwhile is left out, and one that comes may be.
    ///
    /// ```
    /// use noddrefil::{Cache, Config};
    ///
    /// let cache = Cache::open(&Config::for_bytes(16 << 20, 100, 1)?.with_hash_key(1, 2))?;
    /// let mut worker = cache.worker()?;
    /// worker.set(b"river", b"Aare")?;
    /// assert_eq!(worker.keys()?, [b"river"]);
    /// # Ok::<(), noddrefil::Error>(())
    /// ```
    pub fn keys(&mut self) -> Result<Vec<Vec<u8>>, Error> {
        let mut keys = Vec::new();
        for shard in 0.. {
            let mut stripes = 0;
            while self.keys_of_part(shard, stripes, &mut keys)? {
                stripes += 1;
            }
            if stripes == 0 {
                break;
            }
        }
        Ok(keys)
    }

    /// Puts the keys of a part behind those that are there, and returns whether there is such a part.
    fn keys_of_part(&mut self, shard: u64, stripe: u64, keys: &mut Vec<Vec<u8>>) -> Result<bool, Error> {
        let mut entries = Vec::new();
        let handle = &mut self.handle;
        match read(&mut entries, |out, room, len| unsafe { raw::mc_keys(handle, shard, stripe, TRIES, out, room, len) }) {
            Ok(_) => {}
            Err(Error::OutOfRange) => return Ok(false),
            Err(error) => return Err(error),
        }
        let mut rest = entries.as_slice();
        while let Some((&len, behind)) = rest.split_first() {
            let (key, others) = behind.split_at(usize::from(len));
            keys.push(key.to_vec());
            rest = others;
        }
        Ok(true)
    }

    /// The most bytes that a value may have beside a key of this length: `None` where no value fits beside such a key.
    pub fn max_value(&mut self, key_len: usize) -> Result<Option<usize>, Error> {
        let mut most = 0;
        match answer(unsafe { raw::mc_max_value(&mut self.handle, key_len as u64, &mut most) }) {
            Ok(_) => Ok(Some(most as usize)),
            Err(Error::TooLarge) => Ok(None),
            Err(error) => Err(error),
        }
    }
}

/// Puts the value that the call writes behind the bytes that are there, and returns whether there is one. The call gets room, and is made again
/// where that is too little.
fn read(into: &mut Vec<u8>, mut call: impl FnMut(*mut u8, usize, &mut u64) -> u32) -> Result<bool, Error> {
    let begin = into.len();
    let mut room = FIRST_ROOM;
    loop {
        into.resize(begin + room, 0);
        let mut len = 0;
        match until_done(|| call(into[begin..].as_mut_ptr(), room, &mut len)) {
            Ok(Answer::TooSmall) => room = len as usize,
            Ok(Answer::Done) => {
                into.truncate(begin + len as usize);
                return Ok(true);
            }
            Ok(_) => {
                into.truncate(begin);
                return Ok(false);
            }
            Err(error) => {
                into.truncate(begin);
                return Err(error);
            }
        }
    }
}

/// What one thread moves pages with, between the sizes of items.
///
/// Items of sizes that are near one another have chunks of one *class*, and each page belongs to a class of its shard or to the shard's pool.
///
/// ```
/// use noddrefil::{Cache, Config};
///
/// let cache = Cache::open(&Config::for_bytes(16 << 20, 100, 1)?.with_hash_key(1, 2))?;
/// let mut worker = cache.worker()?;
/// let mut tender = cache.tender().expect("it wasn't taken");
/// worker.set(b"greeting", b"hello")?;
/// tender.tend()?; // once a second, in a thread of its own
/// let stats = tender.stats()?;
/// assert_eq!(stats.classes[0].pages, 1);
/// assert_eq!(stats.classes[0].free_chunks, stats.classes[0].per_page - 1);
/// # Ok::<(), noddrefil::Error>(())
/// ```
pub struct Tender {
    handle: Handle,
}

/// What a tender counts.
#[derive(Clone, Debug, PartialEq, Eq)]
pub struct Stats {
    /// What each class has on all shards together, class 1 first.
    pub classes: Vec<ClassStats>,
    /// What all shards have together.
    pub totals: Totals,
}

impl Tender {
    /// Does a window of each shard: the chunks of items that are gone are put back, a page may begin to move, and up to 16 turns of the move are
    /// done. At `NoMemory` it stopped at a shard, and what was done stays.
    pub fn tend(&mut self) -> Result<Tended, Error> {
        let mut done = Tended::default();
        answer(unsafe { raw::mc_tend(&mut self.handle, TRIES, &mut done) })?;
        Ok(done)
    }

    /// What the classes and all shards have. One shard is counted after another, so not all at one moment.
    pub fn stats(&mut self) -> Result<Stats, Error> {
        let mut totals = Totals::default();
        let mut classes = vec![ClassStats::default(); FIRST_CLASSES];
        let mut count = 0;
        loop {
            let room = classes.len();
            let done = until_done(|| unsafe { raw::mc_stats(&mut self.handle, TRIES, &mut totals, classes.as_mut_ptr(), room, &mut count) })?;
            classes.resize(count as usize, ClassStats::default());
            if done == Answer::Done {
                return Ok(Stats { classes, totals });
            }
        }
    }

    /// Sets the mode of all shards. In mode 2 a store that evicts asks for a page of any class at once. Modes 0 and 1 are alike, and a new cache
    /// has mode 0. `OutOfRange` for another mode.
    pub fn set_automove(&mut self, mode: u64) -> Result<(), Error> {
        until_done(|| unsafe { raw::mc_automove(&mut self.handle, mode, TRIES) })?;
        Ok(())
    }

    /// Begins to move a page of the shard from a class to another one, and `tend` does the turns. Without `src` a class with more than one page
    /// is picked. A `dst` of 0 is the shard's pool.
    pub fn reassign(&mut self, shard: u64, src: Option<u64>, dst: u64) -> Result<(), Error> {
        // The library takes a class 0 for none that is named.
        let src = src.map_or(Ok(0), |class| if class == 0 { Err(Error::BadClass) } else { Ok(class) })?;
        until_done(|| unsafe { raw::mc_reassign(&mut self.handle, shard, src, dst, TRIES) })?;
        Ok(())
    }
}
