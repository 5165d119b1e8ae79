//! Pages and size classes: free lists, hand-out orders and the page pool.

use std::mem;

use crate::chunk::{Chunk, Header, List, Pages, State};
use crate::classes::ClassTable;
use crate::moves::Move;

pub struct Class {
    /// Bytes of a chunk.
    pub size: usize,
    pub per_page: usize,
    /// Oldest first. A moving page stays until its move ends.
    pub pages: Vec<usize>,
    /// The next to be handed out is first.
    pub free: List,
    /// Chunks that are handed out, oldest first.
    pub order: List,
    /// Chunks that died, with their ranks then. One that was cleared since, or handed out anew, is dead no more.
    dead: Vec<(u64, Chunk)>,
    pub evictions: u64,
}

#[derive(Default)]
pub struct Totals {
    pub moved: u64,
    pub rescues: u64,
    pub evictions: u64,
    pub busy: u64,
}

pub struct Slabs {
    pub table: ClassTable,
    classes: Vec<Class>,
    pages: Pages,
    /// Pages that came back; the last one is granted next.
    pub pool: Vec<usize>,
    pub moving: Option<Move>,
    /// The class that the last pick stopped at.
    pub cursor: usize,
    pub totals: Totals,
    /// The rank of the chunk that was handed out or touched last.
    last_rank: u64,
}

impl Slabs {
    pub fn new(table: ClassTable) -> Slabs {
        let class = |&size: &usize| Class {
            size,
            per_page: table.page / size,
            pages: Vec::new(),
            free: List::default(),
            order: List::default(),
            dead: Vec::new(),
            evictions: 0,
        };
        let classes: Vec<Class> = table.sizes.iter().map(class).collect();
        let cursor = classes.len();
        Slabs {
            table,
            classes,
            pages: Pages::default(),
            pool: Vec::new(),
            moving: None,
            cursor,
            totals: Totals::default(),
            last_rank: 0,
        }
    }

    pub fn classes(&self) -> &[Class] {
        &self.classes
    }

    pub fn class(&self, class: usize) -> &Class {
        &self.classes[class - 1]
    }

    pub fn class_mut(&mut self, class: usize) -> &mut Class {
        &mut self.classes[class - 1]
    }

    /// Pages that were ever granted.
    pub fn granted(&self) -> usize {
        self.pages.all.len()
    }

    pub fn class_of(&self, chunk: Chunk) -> usize {
        self.pages.all[chunk.page()].class
    }

    pub fn header(&self, chunk: Chunk) -> &Header {
        self.pages.header(chunk)
    }

    pub fn header_mut(&mut self, chunk: Chunk) -> &mut Header {
        self.pages.header_mut(chunk)
    }

    /// The words of a chunk: key, stamp, length, and the item's own.
    pub fn words(&self, chunk: Chunk) -> &[u64] {
        let page = &self.pages.all[chunk.page()];
        let room = self.class(page.class).size / 8;
        &page.words[chunk.index() * room..][..room]
    }

    pub fn words_mut(&mut self, chunk: Chunk) -> &mut [u64] {
        let page = &mut self.pages.all[chunk.page()];
        let room = self.classes[page.class - 1].size / 8;
        &mut page.words[chunk.index() * room..][..room]
    }

    /// Copies an item from one chunk to another of the class.
    pub fn copy(&mut self, from: Chunk, to: Chunk) {
        let item = self.words(from).to_vec();
        self.words_mut(to).copy_from_slice(&item);
    }

    fn next_rank(&mut self) -> u64 {
        self.last_rank += 1;
        self.last_rank
    }

    /// Hands out the class's next free chunk.
    pub fn pop(&mut self, class: usize) -> Option<Chunk> {
        let rank = self.next_rank();
        let own = &mut self.classes[class - 1];
        let chunk = own.free.head?;
        own.free.remove(&mut self.pages, chunk);
        own.order.push_back(&mut self.pages, chunk);
        let header = self.header_mut(chunk);
        (header.state, header.holds, header.rank) = (State::Unlinked, 0, rank);
        Some(chunk)
    }

    /// Of the oldest few chunks the first that is handed out to a key and that nobody holds.
    pub fn oldest_idle(&self, class: usize, tries: usize) -> Option<Chunk> {
        let mut next = self.class(class).order.head;
        for _ in 0..tries {
            let chunk = next?;
            if self.header(chunk).is_idle() {
                return Some(chunk);
            }
            next = self.pages.next(chunk);
        }
        None
    }

    /// Notes a chunk that may be dead, for the next sweep.
    pub fn note_dead(&mut self, chunk: Chunk) {
        let header = self.header(chunk);
        if header.is_dead() {
            let row = (header.rank, chunk);
            self.class_mut(self.class_of(chunk)).dead.push(row);
        }
    }

    /// Puts back the dead chunks of a class, oldest first.
    pub fn sweep(&mut self, class: usize) {
        if self.class(class).dead.is_empty() {
            return;
        }
        let mut dead = mem::take(&mut self.class_mut(class).dead);
        dead.sort_unstable_by_key(|&(rank, _)| rank);
        for (rank, chunk) in dead.drain(..) {
            let header = self.header(chunk);
            if header.is_dead() && header.rank == rank {
                self.back(chunk);
            }
        }
        self.class_mut(class).dead = dead;
    }

    pub fn sweep_all(&mut self) {
        for class in 1..=self.classes.len() {
            self.sweep(class);
        }
    }

    /// Whether a page may be granted to the class: within the limit, or beyond it as its first.
    fn has_page_for(&self, class: usize) -> bool {
        self.granted() < self.table.pages || self.class(class).pages.is_empty()
    }

    /// The class gets a page: from the pool, or else one that was never granted. False where there is none.
    pub fn grow(&mut self, class: usize) -> bool {
        let page = match self.pool.pop() {
            Some(page) => page,
            None if self.has_page_for(class) => self.pages.grant(self.table.page / 8),
            None => return false,
        };
        self.cut(page, class);
        true
    }

    /// The page joins the class, and its chunks the free list. The last one is handed out first.
    pub fn cut(&mut self, page: usize, class: usize) {
        let own = &mut self.classes[class - 1];
        own.pages.push(page);
        self.pages.all[page].class = class;
        for index in 0..own.per_page {
            let chunk = Chunk::new(page, index);
            own.free.push_front(&mut self.pages, chunk);
            let header = self.pages.header_mut(chunk);
            (header.state, header.holds) = (State::Free, 0);
        }
    }

    /// Puts back a handed-out chunk.
    pub fn back(&mut self, chunk: Chunk) {
        let own = &mut self.classes[self.pages.all[chunk.page()].class - 1];
        own.order.remove(&mut self.pages, chunk);
        own.free.push_front(&mut self.pages, chunk);
        self.header_mut(chunk).state = State::Free;
    }

    /// The chunk becomes the youngest of the hand-out order.
    pub fn touch(&mut self, chunk: Chunk) {
        let own = &mut self.classes[self.pages.all[chunk.page()].class - 1];
        own.order.remove(&mut self.pages, chunk);
        own.order.push_back(&mut self.pages, chunk);
        self.header_mut(chunk).rank = self.next_rank();
    }

    /// Takes a chunk out of the free list or hand-out order that it is in.
    pub fn clear(&mut self, chunk: Chunk) {
        let own = &mut self.classes[self.pages.all[chunk.page()].class - 1];
        let list = match self.pages.header(chunk).state {
            State::Free => &mut own.free,
            _ => &mut own.order,
        };
        list.remove(&mut self.pages, chunk);
        self.header_mut(chunk).state = State::Cleared;
    }

    /// The first free chunk of the class that isn't on the page, taken off the free list. It takes the place of
    /// `old` in the hand-out order.
    pub fn pop_off(&mut self, old: Chunk) -> Option<Chunk> {
        let own = &mut self.classes[self.pages.all[old.page()].class - 1];
        let mut new = own.free.head?;
        while new.page() == old.page() {
            new = self.pages.next(new)?;
        }
        own.free.remove(&mut self.pages, new);
        own.order.insert_before(&mut self.pages, new, old);
        own.order.remove(&mut self.pages, old);
        let rank = self.header(old).rank;
        let header = self.header_mut(new);
        (header.state, header.holds, header.rank) = (State::Linked, 0, rank);
        self.header_mut(old).state = State::Cleared;
        Some(new)
    }
}
