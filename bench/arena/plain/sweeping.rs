//! Dead chunks are looked for, by hints or along the pages of a class, and put back, the oldest first.
use crate::arena::Arena;
use crate::dead::DeadChunks;
use crate::header::is_dead;
use crate::hints::WORDS_A_PAGE;
use crate::rows::ChunkId;
use crate::slabs::Slabs;
use std::sync::atomic::Ordering::SeqCst;

impl Arena {
    /// Puts the dead chunks of the class back that hints lead to.
    pub fn recover(&self, slabs: &mut Slabs, class: usize) {
        let mut dead = DeadChunks::new();
        for page in self.hints.pages() {
            if page >= self.page_count() {
                break;
            }
            if slabs.owner(page) == Some(class) {
                self.hints.take_page(page);
                self.look_at_hinted(page, self.per_page(class), &mut dead);
            }
        }
        self.put_dead_back(slabs, class, &mut dead);
    }

    /// Takes a page's hints, and notes which of its first chunks are dead.
    fn look_at_hinted(&self, page: u64, per_page: u64, dead: &mut DeadChunks) {
        for word in 0..WORDS_A_PAGE {
            for index in self.hints.take_chunks(page, word) {
                if index >= per_page {
                    break;
                }
                let chunk = ChunkId { page, index };
                if is_dead(self.header(chunk).load(SeqCst)) {
                    dead.note(chunk);
                }
            }
        }
    }

    /// Puts all dead chunks of the class back.
    pub fn sweep(&self, slabs: &mut Slabs, class: usize) {
        #[cfg(test)]
        {
            slabs.sweeps += 1;
        }
        let mut dead = DeadChunks::new();
        let per_page = self.per_page(class);
        for page in 0..self.page_count() {
            if slabs.owner(page) == Some(class) {
                self.look_along(page, per_page, &mut dead);
            }
        }
        self.put_dead_back(slabs, class, &mut dead);
    }

    /// Notes which of a page's first chunks are dead. Their headers stand side by side.
    fn look_along(&self, page: u64, per_page: u64, dead: &mut DeadChunks) {
        let first = self.header_place(ChunkId { page, index: 0 });
        for (index, header) in (0..).zip(&self.headers[first..first + per_page as usize]) {
            if is_dead(header.load(SeqCst)) {
                dead.note(ChunkId { page, index });
            }
        }
    }

    fn put_dead_back(&self, slabs: &mut Slabs, class: usize, dead: &mut DeadChunks) {
        match dead.oldest_first(slabs) {
            Some(chunks) => chunks.iter().for_each(|chunk| _ = self.put_back(slabs, *chunk)),
            None => self.walk(slabs, class),
        }
    }

    /// Puts the dead chunks back along the class's order.
    fn walk(&self, slabs: &mut Slabs, class: usize) {
        let mut next = slabs.first_out(class);
        while let Some(chunk) = next {
            next = slabs.next(chunk);
            self.put_back(slabs, chunk);
        }
    }
}
