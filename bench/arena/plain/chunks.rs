//! Steps on a chunk's header, with what they do to its row.
use crate::arena::Arena;
use crate::header::{is_dead, is_unheld, tag, FREE_TAG, HANDED_OUT, ISSUE_UNIT, LINKED, MOST_ISSUE, TAG_UNIT};
use crate::rows::ChunkId;
use crate::slabs::Slabs;
use std::sync::atomic::Ordering::SeqCst;

/// A chunk was handed out as often as a header can tell.
#[derive(Debug)]
pub struct WornOut;

impl Arena {
    /// Hands out the class's first free chunk.
    pub fn pop(&self, slabs: &mut Slabs, class: usize) -> Result<Option<ChunkId>, WornOut> {
        let Some(chunk) = slabs.first_free(class) else {
            return Ok(None);
        };
        let header = self.header(chunk);
        if header.load(SeqCst) / ISSUE_UNIT >= MOST_ISSUE {
            return Err(WornOut);
        }
        header.fetch_add(HANDED_OUT, SeqCst);
        slabs.pop(class, chunk);
        Ok(Some(chunk))
    }

    /// Hands out the class's first free chunk that isn't on the old one's page. It takes the old one's place in the order.
    pub fn pop_off(&self, slabs: &mut Slabs, class: usize, old: ChunkId) -> Option<ChunkId> {
        let chunk = self.find_fit(slabs, class, old.page)?;
        self.header(chunk).fetch_add(HANDED_OUT, SeqCst);
        slabs.replace(chunk, old);
        Some(chunk)
    }

    fn find_fit(&self, slabs: &Slabs, class: usize, page: u64) -> Option<ChunkId> {
        let mut next = slabs.first_free(class);
        while let Some(chunk) = next {
            if chunk.page != page && self.header(chunk).load(SeqCst) / ISSUE_UNIT < MOST_ISSUE {
                return Some(chunk);
            }
            next = slabs.next(chunk);
        }
        None
    }

    /// Gives up a reference to the chunk, which is 1, or what a key adds. Where the chunk is dead with that, it is noted.
    #[inline(always)]
    pub fn give_up(&self, chunk: ChunkId, part: u64) {
        let found = self.header(chunk).fetch_sub(part, SeqCst);
        self.hints.note_if_dead(chunk, found.wrapping_sub(part));
    }

    /// Makes a dead chunk free. False where it isn't dead.
    pub fn put_back(&self, slabs: &mut Slabs, chunk: ChunkId) -> bool {
        let header = self.header(chunk);
        if !is_dead(header.load(SeqCst)) {
            return false;
        }
        header.fetch_sub(TAG_UNIT, SeqCst);
        slabs.back(chunk);
        true
    }

    /// Takes the key's part away from a chunk that nobody holds, whose stripe is locked. False where somebody holds it.
    pub fn take_away(&self, chunk: ChunkId) -> bool {
        let header = self.header(chunk);
        let head = header.load(SeqCst);
        is_unheld(head) && header.compare_exchange(head, head - LINKED, SeqCst, SeqCst).is_ok()
    }

    /// Takes a free or dead chunk out of its class's lists. False where it is neither.
    pub fn clear(&self, slabs: &mut Slabs, chunk: ChunkId) -> bool {
        let header = self.header(chunk);
        let head = header.load(SeqCst);
        if tag(head) != FREE_TAG && !is_dead(head) {
            return false;
        }
        header.fetch_sub(tag(head) * TAG_UNIT, SeqCst);
        slabs.clear(chunk);
        true
    }

    /// Makes all chunks of a page free that the class got.
    pub fn cut(&self, slabs: &mut Slabs, page: u64, class: usize) {
        for index in 0..self.per_page(class) {
            let chunk = ChunkId { page, index };
            self.header(chunk).fetch_add(TAG_UNIT, SeqCst);
            slabs.cut(chunk);
        }
    }
}
