//! What the lock of the slabs guards: each class's free list and hand-out order, its pages, and the page that moves.
use crate::ages::Ages;
use crate::rows::{ChunkId, List, Mark, Rows, EMPTY};

/// A page on its way.
#[derive(Clone, Copy)]
pub struct Moving {
    pub page: u64,
    pub class: usize,
    /// None for the pool.
    pub to: Option<usize>,
    /// The chunk that the mover looks at next.
    pub at: u64,
    /// How many chunks of this pass held up the move.
    pub busy: u64,
}

/// What a mover's look at a chunk came to.
#[derive(Clone, Copy, PartialEq, Eq)]
pub enum Found {
    Cleared,
    Rescued,
    Evicted,
    Busy,
    Locked,
    Already,
}

pub struct Slabs {
    rows: Rows,
    ages: Ages,
    free: Vec<List>,
    order: Vec<List>,
    pub evicted: Vec<u64>,
    /// The class of each page that has one. A page that moves has its old one until it comes.
    owners: Vec<Option<usize>>,
    /// How many pages were granted.
    granted: usize,
    /// The pages of each class.
    pub pages: Vec<Vec<u64>>,
    /// The page that came last stands last.
    pub pool: Vec<u64>,
    pub moving: Option<Moving>,
    pub rescues: u64,
    pub evictions: u64,
    /// How often classes were swept.
    #[cfg(test)]
    pub sweeps: u64,
}

impl Slabs {
    /// Of so many classes and pages, each with so many chunks at most.
    pub fn new(classes: usize, most: u64, pages: u64) -> Slabs {
        Slabs {
            rows: Rows::new(most, pages),
            ages: Ages::new(pages * most),
            free: vec![EMPTY; classes],
            order: vec![EMPTY; classes],
            evicted: vec![0; classes],
            owners: vec![None; pages as usize],
            granted: 0,
            pages: vec![Vec::new(); classes],
            pool: Vec::new(),
            moving: None,
            rescues: 0,
            evictions: 0,
            #[cfg(test)]
            sweeps: 0,
        }
    }

    pub fn owner(&self, page: u64) -> Option<usize> {
        self.owners[page as usize]
    }

    /// The class of a chunk whose page has one.
    fn class_of(&self, chunk: ChunkId) -> usize {
        self.owner(chunk.page).unwrap_or_default()
    }

    pub fn first_free(&self, class: usize) -> Option<ChunkId> {
        self.free[class].first()
    }

    pub fn first_out(&self, class: usize) -> Option<ChunkId> {
        self.order[class].first()
    }

    /// The chunk behind this one in its list.
    pub fn next(&self, chunk: ChunkId) -> Option<ChunkId> {
        self.rows.next(chunk)
    }

    /// How many chunks of the class are free.
    pub fn free_count(&self, class: usize) -> u64 {
        self.free[class].length
    }

    /// Less than that of each chunk that was handed out or touched later, of all that are handed out.
    pub fn age(&self, chunk: ChunkId) -> u64 {
        self.ages.age(self.rows.place(chunk))
    }

    /// Hands out the class's first free chunk, which this is.
    pub fn pop(&mut self, class: usize, chunk: ChunkId) {
        self.rows.unlink(&mut self.free[class], chunk);
        self.rows.push_back(&mut self.order[class], chunk, Mark::HandedOut);
        self.ages.renew(self.rows.place(chunk));
    }

    /// Makes a chunk free that was handed out.
    pub fn back(&mut self, chunk: ChunkId) {
        let class = self.class_of(chunk);
        self.rows.unlink(&mut self.order[class], chunk);
        self.rows.push_front(&mut self.free[class], chunk, Mark::Free);
    }

    /// Makes a chunk the one that was handed out last.
    pub fn touch(&mut self, chunk: ChunkId) {
        let class = self.class_of(chunk);
        self.rows.unlink(&mut self.order[class], chunk);
        self.rows.push_back(&mut self.order[class], chunk, Mark::HandedOut);
        self.ages.renew(self.rows.place(chunk));
    }

    /// Gives a free chunk the place of a handed-out one in the order, which stands directly behind it then.
    pub fn replace(&mut self, new: ChunkId, old: ChunkId) {
        let class = self.class_of(old);
        self.rows.unlink(&mut self.free[class], new);
        self.rows.push_before(&mut self.order[class], old, new, Mark::HandedOut);
        self.ages.inherit(self.rows.place(new), self.rows.place(old));
    }

    /// Takes a chunk out of the list that it is in.
    pub fn clear(&mut self, chunk: ChunkId) {
        let class = self.class_of(chunk);
        let list = match self.rows.mark(chunk) {
            Mark::HandedOut => &mut self.order[class],
            _ => &mut self.free[class],
        };
        self.rows.take_out(list, chunk);
    }

    /// Makes a chunk free that was in no list.
    pub fn cut(&mut self, chunk: ChunkId) {
        let class = self.class_of(chunk);
        self.rows.push_front(&mut self.free[class], chunk, Mark::Free);
    }
}

/// Pages.
impl Slabs {
    /// The page that came last into the pool, or else the lowest that was never granted, becomes the class's.
    pub fn grow(&mut self, class: usize) -> Option<u64> {
        let page = self.next_page()?;
        self.give_page(page, class);
        Some(page)
    }

    fn next_page(&mut self) -> Option<u64> {
        if let Some(page) = self.pool.pop() {
            return Some(page);
        }
        if self.granted == self.owners.len() {
            return None;
        }
        self.granted += 1;
        Some(self.granted as u64 - 1)
    }

    fn give_page(&mut self, page: u64, class: usize) {
        self.owners[page as usize] = Some(class);
        self.pages[class].push(page);
    }

    /// The class's first page begins to move to another class, or to the pool. False where a page moves already, or the class has no other.
    pub fn begin_move(&mut self, class: usize, to: Option<usize>) -> bool {
        if self.moving.is_some() || to == Some(class) || self.pages[class].len() < 2 {
            return false;
        }
        match to {
            None => self.pool.reserve(1),
            Some(to) => self.pages[to].reserve(1),
        }
        self.moving = Some(Moving { page: self.pages[class][0], class, to, at: 0, busy: 0 });
        true
    }

    /// The mover has looked at a chunk.
    pub fn passed(&mut self, found: Found) {
        self.rescues += u64::from(found == Found::Rescued);
        self.evictions += u64::from(found == Found::Evicted);
        if let Some(moving) = &mut self.moving {
            moving.at += 1;
            moving.busy += u64::from(matches!(found, Found::Busy | Found::Locked));
        }
    }

    /// The pass begins anew.
    pub fn wrap(&mut self) {
        if let Some(moving) = &mut self.moving {
            moving.at = 0;
            moving.busy = 0;
        }
    }

    /// The page that moves comes to where it goes.
    pub fn finish_move(&mut self, moving: Moving) {
        let Moving { page, class, to, .. } = moving;
        self.moving = None;
        self.pages[class].retain(|other| *other != page);
        match to {
            None => {
                self.owners[page as usize] = None;
                self.pool.push(page);
            }
            Some(to) => self.give_page(page, to),
        }
    }
}

#[cfg(test)]
impl Slabs {
    fn along(&self, first: Option<ChunkId>) -> Vec<ChunkId> {
        std::iter::successors(first, |chunk| self.next(*chunk)).collect()
    }

    /// The class's free chunks in their order.
    pub fn free_list(&self, class: usize) -> Vec<ChunkId> {
        self.along(self.first_free(class))
    }

    /// Those that are handed out, the oldest first.
    pub fn out_list(&self, class: usize) -> Vec<ChunkId> {
        self.along(self.first_out(class))
    }
}
