//! Hints of where dead chunks may be: who follows one looks at the chunk's header.
use crate::header::is_dead;
use crate::rows::ChunkId;
use std::sync::atomic::{AtomicU64, Ordering::SeqCst};

/// How many words the bits of a page's chunks take.
pub const WORDS_A_PAGE: u64 = 4;

/// How many bits a word has. So many pages have hints.
const BITS: u64 = 64;

/// A bit for each chunk that may be dead, and one for each page on which there may be such a chunk. A chunk's bit is set before its page's,
/// and taken after it, so that none is lost.
pub struct Hints {
    pages: AtomicU64,
    chunks: Vec<AtomicU64>,
}

impl Hints {
    /// None yet.
    pub fn new() -> Hints {
        Hints { pages: AtomicU64::new(0), chunks: (0..BITS * WORDS_A_PAGE).map(|_| AtomicU64::new(0)).collect() }
    }

    /// The chunk's header is this now: the chunk is noted where it is dead.
    #[inline(always)]
    pub fn note_if_dead(&self, chunk: ChunkId, head: u64) {
        if is_dead(head) {
            self.note(chunk);
        }
    }

    fn note(&self, chunk: ChunkId) {
        let Some(word) = self.chunks.get(place(chunk.page, chunk.index / BITS)) else {
            return;
        };
        word.fetch_or(1 << (chunk.index % BITS), SeqCst);
        let page = 1 << (chunk.page % BITS);
        if self.pages.load(SeqCst) & page == 0 {
            self.pages.fetch_or(page, SeqCst);
        }
    }

    /// The pages on which chunks may be dead.
    pub fn pages(&self) -> impl Iterator<Item = u64> {
        ones(self.pages.load(SeqCst))
    }

    /// Takes the page's bit.
    pub fn take_page(&self, page: u64) {
        self.pages.fetch_and(!(1 << (page % BITS)), SeqCst);
    }

    /// Takes the bits of 64 chunks of the page, those from 64 times `word` on, and gives the chunks' indices.
    pub fn take_chunks(&self, page: u64, word: u64) -> impl Iterator<Item = u64> {
        let bits = self.chunks.get(place(page, word)).map_or(0, take);
        ones(bits).map(move |bit| word * BITS + bit)
    }
}

#[cfg(test)]
impl Hints {
    /// The chunks whose bits are set, of pages whose bits are.
    pub fn noted(&self) -> Vec<ChunkId> {
        let bits = |page, word| self.chunks[place(page, word)].load(SeqCst);
        let chunks = |page| (0..WORDS_A_PAGE).flat_map(move |word| ones(bits(page, word)).map(move |bit| word * BITS + bit));
        self.pages().flat_map(|page| chunks(page).map(move |index| ChunkId { page, index })).collect()
    }
}

/// Where the word of a page's bits stands.
fn place(page: u64, word: u64) -> usize {
    (page * WORDS_A_PAGE + word) as usize
}

/// Most words are 0, and none of them is written.
fn take(word: &AtomicU64) -> u64 {
    match word.load(SeqCst) {
        0 => 0,
        _ => word.swap(0, SeqCst),
    }
}

/// The numbers of the bits that are set, the lowest first.
fn ones(bits: u64) -> impl Iterator<Item = u64> {
    let mut bits = bits;
    std::iter::from_fn(move || {
        let lowest = (bits != 0).then(|| u64::from(bits.trailing_zeros()));
        bits &= bits.wrapping_sub(1);
        lowest
    })
}
