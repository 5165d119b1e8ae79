//! The commands on keys, over a worker of the cache. An `Err` is a reply, too: that nothing was done, and why.
use crate::counts::{Counter, Counts};
use crate::item::{deadline, Head, HEAD};
use crate::shared::{now, Shared};
use crate::words::{unsigned, Reply};
use noddrefil::{Error, Swap, Worker};
use std::sync::{atomic::Ordering::Relaxed, MutexGuard};

/// The cache as one batch of commands sees it. All its items are looked at by the same second.
pub struct Store<'a> {
    pub shared: &'a Shared,
    pub now: u32,
    counts: &'a Counts,
    worker: MutexGuard<'a, Worker>,
    // The item that was looked at or set last. A look also leaves its version: none where the key had no item. It may be gone by its deadline.
    item: Vec<u8>,
    version: Option<u64>,
}

impl<'a> Store<'a> {
    /// The cache for a batch of the connection of this number.
    pub fn new(shared: &'a Shared, number: usize) -> Store<'a> {
        let counts = &shared.counts[number % shared.counts.len()];
        Store { shared, now: now(), counts, worker: shared.worker(number), item: Vec::new(), version: None }
    }

    /// The head and the data of the key's item. With an expiry time, the item gets it.
    pub fn get(&mut self, key: &[u8], expiry: Option<i32>) -> Reply<Option<(Head, &[u8])>> {
        let found = self.expire(key, expiry)?;
        self.counts.add(Counter::cmd_get);
        self.counts.add(if found.is_some() { Counter::get_hits } else { Counter::get_misses });
        Ok(found.map(|head| (head, self.data())))
    }

    /// Stores as the command of this name does. `cas` wants the old item to have the head's unique number.
    pub fn store(&mut self, name: &[u8], key: &[u8], head: Head, data: &[u8]) -> Reply<&'static str> {
        self.counts.add(Counter::cmd_set);
        if name == b"set" {
            self.item = self.numbered(head).with(data, std::mem::take(&mut self.item));
            // Where the cache has no room for the item, the old one goes, as memcached has it.
            return self.worker.set(key, &self.item).map(|()| "STORED").map_err(refusal);
        }
        let stored = self.change(key, |store, old| match (name, old) {
            (b"add", Some(_)) | (b"replace" | b"append" | b"prepend", None) => Err("NOT_STORED"),
            (b"cas", None) => Err(store.counted(Counter::cas_misses, "NOT_FOUND")),
            (b"cas", Some(old)) if old.unique != head.unique => Err(store.counted(Counter::cas_badval, "EXISTS")),
            (b"append", Some(old)) => Ok(Some(store.numbered(old).with(&[store.data(), data].concat(), Vec::new()))),
            (b"prepend", Some(old)) => Ok(Some(store.numbered(old).with(&[data, store.data()].concat(), Vec::new()))),
            _ => Ok(Some(store.numbered(head).with(data, Vec::new()))),
        });
        stored.map_err(|reply| if matches!(name, b"append" | b"prepend") { "NOT_STORED" } else { reply })?;
        Ok(if name == b"cas" { self.counted(Counter::cas_hits, "STORED") } else { "STORED" })
    }

    /// Refuses an item that no page has room for. As at memcached, the old item doesn't outlive a refused `set`.
    pub fn refuse(&mut self, name: &[u8], key: &[u8]) -> &'static str {
        let _deleted = (name == b"set").then(|| self.worker.delete(key));
        self.counted(Counter::store_too_large, refusal(Error::TooLarge))
    }

    pub fn delete(&mut self, key: &[u8]) -> Reply<&'static str> {
        let deleted = self.find(key)?.is_some() && self.worker.delete(key).map_err(refusal)?;
        deleted.then(|| self.counted(Counter::delete_hits, "DELETED")).ok_or_else(|| self.counted(Counter::delete_misses, "NOT_FOUND"))
    }

    pub fn touch(&mut self, key: &[u8], expiry: i32) -> Reply<&'static str> {
        self.counts.add(Counter::cmd_touch);
        let found = self.expire(key, Some(expiry))?;
        found.map(|_| self.counted(Counter::touch_hits, "TOUCHED")).ok_or_else(|| self.counted(Counter::touch_misses, "NOT_FOUND"))
    }

    /// Counts a number of decimal digits as `incr` and `decr` do: up wraps around at 2^64, down stops at 0. A shorter number is filled with
    /// spaces.
    pub fn count(&mut self, name: &[u8], key: &[u8], by: u64) -> Reply<u64> {
        let is_up = name == b"incr";
        let [hits, misses] = if is_up { [Counter::incr_hits, Counter::incr_misses] } else { [Counter::decr_hits, Counter::decr_misses] };
        let mut number = 0;
        self.change(key, |store, found| {
            let head = found.ok_or_else(|| store.counted(misses, "NOT_FOUND"))?;
            let old = unsigned(store.data(), "CLIENT_ERROR cannot increment or decrement non-numeric value")?;
            number = if is_up { old.wrapping_add(by) } else { old.saturating_sub(by) };
            let text = format!("{number:<width$}", width = store.data().len());
            Ok(Some(store.numbered(head).with(text.as_bytes(), Vec::new())))
        })?;
        self.counts.add(hits);
        Ok(number)
    }

    /// Forgets all items, now or at this expiry time.
    pub fn flush(&mut self, expiry: i32) -> &'static str {
        self.shared.next_flush.store(if expiry == 0 { self.now } else { deadline(expiry, self.now) }, Relaxed);
        self.shared.settle_flush();
        self.counted(Counter::cmd_flush, "OK")
    }

    // Stores what `make` makes of the key's item, unless that is nothing, and returns the head of the old one. Where another connection stores
    // between look and store, both are done again.
    fn change(&mut self, key: &[u8], mut make: impl FnMut(&Self, Option<Head>) -> Reply<Option<Vec<u8>>>) -> Reply<Option<Head>> {
        loop {
            let found = self.find(key)?;
            let Some(item) = make(self, found)? else { return Ok(found) };
            let stored = match self.version {
                Some(version) => self.worker.compare_and_set(key, &item, version).map(|swap| swap == Swap::Stored),
                None => self.worker.add(key, &item),
            };
            if stored.map_err(refusal)? {
                return Ok(found);
            }
        }
    }

    // Finds the key's item. With an expiry time, the item gets it.
    fn expire(&mut self, key: &[u8], expiry: Option<i32>) -> Reply<Option<Head>> {
        let deadline = expiry.map(|expiry| deadline(expiry, self.now));
        self.change(key, |store, found| Ok(found.zip(deadline).map(|(head, deadline)| Head { deadline, ..head }.with(store.data(), Vec::new()))))
    }

    // Finds the key's item, if its deadline hasn't passed and no flush took it.
    fn find(&mut self, key: &[u8]) -> Reply<Option<Head>> {
        self.item.clear();
        self.version = self.worker.get_with_version(key, &mut self.item).map_err(refusal)?;
        let flushed = self.shared.flushed.load(Relaxed);
        let stays = |head: &Head| head.unique > flushed && (head.deadline == 0 || head.deadline > self.now);
        Ok(self.version.map(|_| Head::read(&self.item)).filter(stays))
    }

    // The data of the item that was found last.
    fn data(&self) -> &[u8] {
        &self.item[HEAD..]
    }

    // The head with a unique number of its own.
    fn numbered(&self, head: Head) -> Head {
        Head { unique: self.shared.unique.fetch_add(1, Relaxed) + 1, ..head }
    }

    fn counted(&self, counter: Counter, reply: &'static str) -> &'static str {
        self.counts.add(counter);
        reply
    }
}

fn refusal(error: Error) -> &'static str {
    match error {
        Error::TooLarge => "SERVER_ERROR object too large for cache",
        _ => "SERVER_ERROR out of memory storing object",
    }
}
