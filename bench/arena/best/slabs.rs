//! Which chunks are free, and in which order those of each class were handed out or touched. All of it is behind one lock.
//!
//! A page has its own free chunks, and a class the pages that have some: so a page that moves leaves with its free chunks in one step, and
//! whoever wants a chunk off the page never meets one on it.
use crate::lines::{Chunk, LINE};

/// The bytes of a chunk of each class, from class 1 on.
const SIZES: [u64; 4] = [64, 128, 256, 512];

pub type ClassId = usize;
pub type PageId = u32;

/// No page has so many lines.
const NO_CHUNK: Chunk = Chunk(u32::MAX);

/// Stands for the place of a chunk that isn't in an order: it is free, or was cleared since its page began to move.
const FREE: Chunk = Chunk(u32::MAX);
const CLEARED: Chunk = Chunk(u32::MAX - 1);

/// A chunk's neighbours in the order of its class, which is a ring through a row of the class's own; of a free chunk the next free one.
#[derive(Clone, Copy)]
struct Row {
    next: Chunk,
    previous: Chunk,
}

const FREE_ROW: Row = Row { next: NO_CHUNK, previous: FREE };

#[derive(Clone)]
struct Page {
    class: ClassId,
    /// The chunk that was given back last.
    free: Chunk,
    /// How many of its chunks were handed out since it was cut.
    cut: u32,
    /// How many are handed out.
    used: u32,
}

struct Class {
    lines: u32,
    per_page: u32,
    pages: Vec<PageId>,
    /// Those of its pages that have free chunks, but for one that moves.
    roomy: Vec<PageId>,
    evicted: u64,
}

/// A page on its way.
#[derive(Clone, Copy)]
pub struct Moving {
    pub page: PageId,
    pub from: ClassId,
    /// 0 for the pool.
    to: ClassId,
    /// How many of the page's chunks the mover has passed.
    at: u32,
}

/// What the slabs know of a chunk of the page that moves.
#[derive(Clone, Copy, PartialEq, Eq)]
pub enum Listed {
    Free,
    Cleared,
    HandedOut,
}

pub struct Slabs {
    /// A row for each line, and behind them one for each class.
    rows: Vec<Row>,
    pages: Vec<Page>,
    classes: Vec<Class>,
    lines_a_page: u32,
    /// The page that came last stands last.
    pool: Vec<PageId>,
    /// How many pages were granted to some class.
    granted: u32,
    moving: Option<Moving>,
}

/// The lowest class whose chunks have so many lines.
#[inline]
pub fn class_for(lines: usize) -> Option<ClassId> {
    let bytes = lines as u64 * LINE;
    SIZES.iter().position(|size| *size >= bytes).map(|place| place + 1)
}

fn new_class(size: u64, page: u64) -> Class {
    let (lines, per_page) = ((size / LINE) as u32, (page / size) as u32);
    Class { lines, per_page, pages: Vec::new(), roomy: Vec::new(), evicted: 0 }
}

impl Slabs {
    /// Of so many pages of so many bytes each.
    pub fn new(page: u64, pages: u64) -> Slabs {
        let lines_a_page = (page / LINE) as u32;
        let lines = lines_a_page * pages as u32;
        let mut rows = vec![FREE_ROW; lines as usize];
        rows.extend((0..SIZES.len() as u32).map(|class| Row { next: Chunk(lines + class), previous: Chunk(lines + class) }));
        Slabs {
            rows,
            pages: vec![Page { class: 0, free: NO_CHUNK, cut: 0, used: 0 }; pages as usize],
            classes: SIZES.iter().map(|size| new_class(*size, page)).collect(),
            lines_a_page,
            pool: Vec::with_capacity(pages as usize),
            granted: 0,
            moving: None,
        }
    }

    fn class(&mut self, class: ClassId) -> &mut Class {
        &mut self.classes[class - 1]
    }

    fn page_of(&self, chunk: Chunk) -> PageId {
        chunk.0 / self.lines_a_page
    }

    fn row(&mut self, chunk: Chunk) -> &mut Row {
        &mut self.rows[chunk.place()]
    }

    /// The row that closes the ring of the class's order.
    fn ring(&self, class: ClassId) -> Chunk {
        Chunk((self.rows.len() - self.classes.len() + class - 1) as u32)
    }

    /// The chunk behind this one in its class's order, or the first where none is named.
    pub fn next_out(&self, class: ClassId, chunk: Option<Chunk>) -> Option<Chunk> {
        let ring = self.ring(class);
        let next = self.rows[chunk.unwrap_or(ring).place()].next;
        (next != ring).then_some(next)
    }

    fn unlink(&mut self, chunk: Chunk) {
        let Row { next, previous } = *self.row(chunk);
        self.row(previous).next = next;
        self.row(next).previous = previous;
    }

    fn push_back(&mut self, class: ClassId, chunk: Chunk) {
        let ring = self.ring(class);
        let last = self.row(ring).previous;
        *self.row(chunk) = Row { next: ring, previous: last };
        self.row(last).next = chunk;
        self.row(ring).previous = chunk;
    }

    /// Makes a chunk that is handed out the one that is evicted last.
    #[inline]
    pub fn make_newest(&mut self, class: ClassId, chunk: Chunk) {
        self.unlink(chunk);
        self.push_back(class, chunk);
    }

    /// Hands out a free chunk of the class.
    #[inline]
    pub fn pop(&mut self, class: ClassId) -> Option<Chunk> {
        let chunk = self.take_free(class)?;
        self.push_back(class, chunk);
        Some(chunk)
    }

    /// Takes a free chunk of the class, which is in no order yet.
    #[inline]
    fn take_free(&mut self, class: ClassId) -> Option<Chunk> {
        let &page = self.class(class).roomy.last()?;
        let Class { lines, per_page, .. } = *self.class(class);
        let first = page * self.lines_a_page;
        let rows = &self.rows;
        let it = &mut self.pages[page as usize];
        let chunk = match it.free {
            NO_CHUNK => {
                it.cut += 1;
                Chunk(first + (it.cut - 1) * lines)
            }
            free => {
                it.free = rows[free.place()].next;
                free
            }
        };
        it.used += 1;
        if it.used == per_page {
            self.class(class).roomy.pop();
        }
        Some(chunk)
    }

    /// Makes a chunk free that is handed out, and that nobody refers to.
    #[inline]
    pub fn give_back(&mut self, chunk: Chunk) {
        self.unlink(chunk);
        let page = self.page_of(chunk);
        let it = &mut self.pages[page as usize];
        self.rows[chunk.place()] = Row { next: it.free, previous: FREE };
        it.free = chunk;
        it.used -= 1;
        let (class, used) = (it.class, it.used);
        let is_moving = self.moving.is_some_and(|moving| moving.page == page);
        if used + 1 == self.class(class).per_page && !is_moving {
            self.class(class).roomy.push(page);
        }
    }

    /// Gives the class the page that came last into the pool, or else the lowest that was never granted.
    pub fn grow(&mut self, class: ClassId) -> bool {
        let Some(page) = self.next_page() else {
            return false;
        };
        self.cut(page, class);
        true
    }

    fn next_page(&mut self) -> Option<PageId> {
        if let Some(page) = self.pool.pop() {
            return Some(page);
        }
        let page = self.granted;
        if page as usize == self.pages.len() {
            return None;
        }
        self.granted += 1;
        Some(page)
    }

    /// Makes a page the class's, whose chunks are all free.
    fn cut(&mut self, page: PageId, class: ClassId) {
        let first = (page * self.lines_a_page) as usize;
        self.rows[first..first + self.lines_a_page as usize].fill(FREE_ROW);
        self.pages[page as usize] = Page { class, free: NO_CHUNK, cut: 0, used: 0 };
        self.class(class).pages.push(page);
        self.class(class).roomy.push(page);
    }

    pub fn count_eviction(&mut self, class: ClassId) {
        self.class(class).evicted += 1;
    }

    /// How many items of the class were evicted to make room for others.
    pub fn evicted(&mut self, class: ClassId) -> u64 {
        self.class(class).evicted
    }
}

/// The page that moves.
impl Slabs {
    /// The first page of the class begins to move. False where a page moves already, or the class has no other.
    pub fn begin_move(&mut self, from: ClassId, to: ClassId) -> bool {
        if self.moving.is_some() || from == to || self.class(from).pages.len() < 2 {
            return false;
        }
        let page = self.class(from).pages[0];
        self.class(from).roomy.retain(|other| *other != page);
        self.moving = Some(Moving { page, from, to, at: 0 });
        true
    }

    pub fn moving(&self) -> Option<Moving> {
        self.moving
    }

    /// The chunk that the mover looks at next, and passes with that. None at the page's end.
    pub fn next_moving(&mut self) -> Option<Chunk> {
        let moving = self.moving.as_mut()?;
        let class = &self.classes[moving.from - 1];
        if moving.at == class.per_page {
            return None;
        }
        moving.at += 1;
        Some(Chunk(moving.page * self.lines_a_page + (moving.at - 1) * class.lines))
    }

    pub fn listed(&self, chunk: Chunk) -> Listed {
        match self.rows[chunk.place()].previous {
            FREE => Listed::Free,
            CLEARED => Listed::Cleared,
            _ => Listed::HandedOut,
        }
    }

    /// Clears a free chunk of the page that moves.
    pub fn clear_free(&mut self, chunk: Chunk) {
        self.row(chunk).previous = CLEARED;
    }

    /// Clears a chunk of the page that moves whose item was evicted.
    pub fn clear_evicted(&mut self, chunk: Chunk) {
        self.unlink(chunk);
        self.clear_used(chunk);
    }

    /// A free chunk of the class takes the place of one of the page that moves in the order, and the old one is cleared.
    pub fn take_place(&mut self, class: ClassId, old: Chunk) -> Option<Chunk> {
        let new = self.take_free(class)?;
        let row = *self.row(old);
        *self.row(new) = row;
        self.row(row.previous).next = new;
        self.row(row.next).previous = new;
        self.clear_used(old);
        Some(new)
    }

    fn clear_used(&mut self, chunk: Chunk) {
        let page = self.page_of(chunk);
        self.pages[page as usize].used -= 1;
        self.row(chunk).previous = CLEARED;
    }

    /// Where the mover has passed all of the page, it comes to where it goes, if all chunks are cleared, and else the pass begins anew. True
    /// where it came.
    pub fn end_pass(&mut self) -> bool {
        let Some(moving) = &mut self.moving else {
            return false;
        };
        let Moving { page, from, to, at } = *moving;
        if at < self.classes[from - 1].per_page {
            return false;
        }
        if self.pages[page as usize].used > 0 {
            moving.at = 0;
            return false;
        }
        self.moving = None;
        self.class(from).pages.retain(|other| *other != page);
        match to {
            0 => self.pool.push(page),
            _ => self.cut(page, to),
        }
        true
    }
}
