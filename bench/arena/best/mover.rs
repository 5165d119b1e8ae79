//! A page's items that go to other pages of its class, so that another class may have the page.
use crate::cache::Cache;
use crate::driver::{Counts, Turn};
use crate::index::Hash;
use crate::lines::{Chunk, State};
use crate::slabs::{ClassId, Listed, Slabs};

/// How many chunks a turn looks at.
const BULK: usize = 64;

impl Cache {
    /// The first page of the class begins to move to the other one, or to the pool, 0.
    pub fn reassign(&self, from: ClassId, to: ClassId) -> bool {
        self.slabs.lock().begin_move(from, to)
    }

    pub fn turn(&self) -> Turn {
        let mut slabs = self.slabs.lock();
        let Some(moving) = slabs.moving() else {
            return Turn::Idle;
        };
        let mut counts = Counts::default();
        for _ in 0..BULK {
            let Some(chunk) = slabs.next_moving() else {
                break;
            };
            self.visit(&mut slabs, moving.from, chunk, &mut counts);
        }
        match slabs.end_pass() {
            true => Turn::Finished(counts),
            false => Turn::Went(counts),
        }
    }

    fn visit(&self, slabs: &mut Slabs, class: ClassId, chunk: Chunk, counts: &mut Counts) {
        match (slabs.listed(chunk), self.lines.state(chunk)) {
            (Listed::Cleared, _) => {}
            (Listed::Free, _) => {
                slabs.clear_free(chunk);
                counts.cleared += 1;
            }
            (Listed::HandedOut, State::Unheld) => self.save(slabs, class, chunk, counts),
            // It is held; or it is being filled, or waits for the lock of the slabs, to be free.
            (Listed::HandedOut, State::Held | State::Unused) => counts.busy += 1,
        }
    }

    /// Copies an item to a free chunk of the class off the page, or evicts it where there is none.
    fn save(&self, slabs: &mut Slabs, class: ClassId, chunk: Chunk, counts: &mut Counts) {
        let key = self.lines.key(chunk);
        let Some(mut index) = self.index_of(key).try_lock() else {
            counts.locked += 1;
            return;
        };
        if !self.lines.take_away(chunk) {
            counts.busy += 1;
            return;
        }
        let hash = Hash::of(key);
        counts.cleared += 1;
        if let Some(copy) = slabs.take_place(class, chunk) {
            self.lines.copy(chunk, copy);
            self.lines.link(copy);
            let was_found = index.replace(hash, chunk, copy);
            debug_assert!(was_found, "no key leads to {chunk:?}");
            counts.rescued += 1;
        } else {
            index.remove(hash, chunk);
            slabs.clear_evicted(chunk);
            counts.evicted += 1;
        }
    }
}
