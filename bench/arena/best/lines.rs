//! The memory itself: lines of 64 bytes, each with a header beside seven words, so that a small item is one line of the cache.
//!
//! A chunk is a run of lines, and the header of the first is the chunk's. The other lines of a large chunk keep theirs unused: so a header
//! stands where it stood whatever a page is cut for, and a hint to an item that went long ago finds a header there, and no item's words.
use std::sync::atomic::{AtomicU64, Ordering};

/// So many words of an item are in its first line, behind its key and length, and so many in each other one.
const FIRST_WORDS: usize = 5;
const WORDS: usize = 7;

/// The bytes of a line.
pub const LINE: u64 = 64;

/// A header counts the references in its lowest bits. Above them is whether a key leads to the item, and then how often the chunk was
/// filled, its issue.
pub const LINKED: u64 = 1 << 15;
const ISSUE: u64 = 1 << 16;

/// A chunk, by the number of its first line.
#[derive(Clone, Copy, Debug, PartialEq, Eq)]
pub struct Chunk(pub u32);

impl Chunk {
    pub fn place(self) -> usize {
        self.0 as usize
    }
}

/// What a header says of its chunk.
#[derive(Clone, Copy, PartialEq, Eq)]
pub enum State {
    /// Nobody refers to it, and no key leads to it.
    Unused,
    /// A key leads to it, and nobody refers to it.
    Unheld,
    /// Somebody refers to it.
    Held,
}

#[derive(Default)]
#[repr(align(64))]
struct Line {
    header: AtomicU64,
    words: [AtomicU64; WORDS],
}

pub struct Lines {
    lines: Vec<Line>,
}

/// How many lines an item of so many words takes.
pub fn lines_of(words: usize) -> usize {
    1 + words.saturating_sub(FIRST_WORDS).div_ceil(WORDS)
}

impl Lines {
    pub fn new(count: usize) -> Lines {
        Lines { lines: (0..count).map(|_| Line::default()).collect() }
    }

    fn header(&self, chunk: Chunk) -> &AtomicU64 {
        &self.lines[chunk.place()].header
    }

    #[inline]
    pub fn state(&self, chunk: Chunk) -> State {
        match self.header(chunk).load(Ordering::Acquire) % ISSUE {
            0 => State::Unused,
            LINKED => State::Unheld,
            _ => State::Held,
        }
    }

    #[inline]
    pub fn issue(&self, chunk: Chunk) -> u64 {
        self.header(chunk).load(Ordering::Relaxed) / ISSUE
    }

    /// Whose lock of the stripe is held may refer to the items there.
    #[inline]
    pub fn hold(&self, chunk: Chunk) {
        self.header(chunk).fetch_add(1, Ordering::Relaxed);
    }

    /// The same by a hint, with no lock. False where the item has gone, or its header was just changed.
    #[inline]
    pub fn hold_issue(&self, chunk: Chunk, issue: u64) -> bool {
        let header = self.header(chunk);
        let head = header.load(Ordering::Relaxed);
        let is_there = head & LINKED != 0 && head / ISSUE == issue;
        is_there && header.compare_exchange(head, head + 1, Ordering::Acquire, Ordering::Relaxed).is_ok()
    }

    /// Gives up so many references, or `LINKED`. True where that was the last, so that the chunk is the caller's to free.
    #[inline]
    pub fn give_up(&self, chunk: Chunk, part: u64) -> bool {
        let head = self.header(chunk).fetch_sub(part, Ordering::AcqRel);
        head % ISSUE == part
    }

    /// Takes a linked item from its key, unless somebody refers to it. Whose lock of its stripe is held may do so.
    #[inline]
    pub fn take_away(&self, chunk: Chunk) -> bool {
        let header = self.header(chunk);
        let head = header.load(Ordering::Relaxed);
        head % ISSUE == LINKED
            && header.compare_exchange(head, head - LINKED, Ordering::Acquire, Ordering::Relaxed).is_ok()
    }

    /// Makes an unused chunk linked, under its next issue. It is the caller's alone, so a store will do: an exchange by a hint finds the
    /// issue that it had before, or none linked.
    #[inline]
    pub fn link(&self, chunk: Chunk) {
        let header = self.header(chunk);
        let next = header.load(Ordering::Relaxed) / ISSUE + 1;
        header.store(next * ISSUE + LINKED, Ordering::Release);
    }

    #[inline]
    pub fn key(&self, chunk: Chunk) -> u64 {
        self.lines[chunk.place()].words[0].load(Ordering::Relaxed)
    }

    /// How many words the item has.
    #[inline]
    pub fn length(&self, chunk: Chunk) -> usize {
        self.lines[chunk.place()].words[1].load(Ordering::Relaxed) as usize
    }

    /// Writes an item into a chunk that is the caller's alone.
    #[inline]
    pub fn write(&self, chunk: Chunk, key: u64, words: &[u64]) {
        let lines = &self.lines[chunk.place()..chunk.place() + lines_of(words.len())];
        lines[0].words[0].store(key, Ordering::Relaxed);
        lines[0].words[1].store(words.len() as u64, Ordering::Relaxed);
        let (first, rest) = words.split_at(words.len().min(FIRST_WORDS));
        store_all(&lines[0].words[WORDS - FIRST_WORDS..], first);
        for (line, words) in lines[1..].iter().zip(rest.chunks(WORDS)) {
            store_all(&line.words, words);
        }
    }

    /// The words of an item that is held, or whose stripe is.
    #[inline]
    pub fn words(&self, chunk: Chunk, length: usize) -> impl Iterator<Item = u64> + '_ {
        let lines = &self.lines[chunk.place()..chunk.place() + lines_of(length)];
        let first = &lines[0].words[WORDS - FIRST_WORDS..];
        let rest = lines[1..].iter().flat_map(|line| &line.words);
        first.iter().chain(rest).take(length).map(|word| word.load(Ordering::Relaxed))
    }

    /// Copies an item into a chunk that is the caller's alone.
    pub fn copy(&self, from: Chunk, to: Chunk) {
        let count = lines_of(self.length(from));
        let [old, new] = [from, to].map(|chunk| &self.lines[chunk.place()..chunk.place() + count]);
        for (old, new) in old.iter().zip(new) {
            for (old, new) in old.words.iter().zip(&new.words) {
                new.store(old.load(Ordering::Relaxed), Ordering::Relaxed);
            }
        }
    }
}

#[inline]
fn store_all(places: &[AtomicU64], words: &[u64]) {
    for (place, word) in places.iter().zip(words) {
        place.store(*word, Ordering::Relaxed);
    }
}
