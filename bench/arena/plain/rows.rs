//! Linked lists of chunks: each chunk has a row with its neighbours, in four bytes a link.

/// The most chunks of a page.
pub const MOST: u64 = 256;

#[derive(Clone, Copy, Debug, PartialEq, Eq)]
pub struct ChunkId {
    pub page: u64,
    pub index: u64,
}

/// A chunk, or none.
#[derive(Clone, Copy)]
struct Link(u32);

const NONE: Link = Link(0);

impl Link {
    fn to(chunk: ChunkId) -> Link {
        Link((chunk.page * MOST + chunk.index + 1) as u32)
    }

    fn chunk(self) -> Option<ChunkId> {
        let place = u64::from(self.0.checked_sub(1)?);
        Some(ChunkId { page: place / MOST, index: place % MOST })
    }
}

#[derive(Clone, Copy)]
pub enum Mark {
    Unlisted,
    Free,
    HandedOut,
}

/// A chunk's neighbours in its list.
#[derive(Clone, Copy)]
struct Row {
    next: Link,
    previous: Link,
    mark: Mark,
}

const UNLISTED: Row = Row { next: NONE, previous: NONE, mark: Mark::Unlisted };

#[derive(Clone, Copy)]
pub struct List {
    first: Link,
    last: Link,
    pub length: u64,
}

pub const EMPTY: List = List { first: NONE, last: NONE, length: 0 };

impl List {
    pub fn first(&self) -> Option<ChunkId> {
        self.first.chunk()
    }
}

/// The rows of all chunks.
pub struct Rows {
    most: u64,
    rows: Vec<Row>,
}

impl Rows {
    /// Of so many pages, each with so many chunks at most.
    pub fn new(most: u64, pages: u64) -> Rows {
        Rows { most, rows: vec![UNLISTED; (pages * most) as usize] }
    }

    /// Where the chunk's row stands.
    pub fn place(&self, chunk: ChunkId) -> usize {
        (chunk.page * self.most + chunk.index) as usize
    }

    fn row(&mut self, chunk: ChunkId) -> &mut Row {
        let place = self.place(chunk);
        &mut self.rows[place]
    }

    pub fn mark(&self, chunk: ChunkId) -> Mark {
        self.rows[self.place(chunk)].mark
    }

    /// The chunk behind this one in its list.
    pub fn next(&self, chunk: ChunkId) -> Option<ChunkId> {
        self.rows[self.place(chunk)].next.chunk()
    }

    pub fn push_front(&mut self, list: &mut List, chunk: ChunkId, mark: Mark) {
        self.link(list, NONE, list.first, chunk, mark);
    }

    pub fn push_back(&mut self, list: &mut List, chunk: ChunkId, mark: Mark) {
        self.link(list, list.last, NONE, chunk, mark);
    }

    /// Puts a chunk directly before another one of the list.
    pub fn push_before(&mut self, list: &mut List, other: ChunkId, chunk: ChunkId, mark: Mark) {
        let before = self.row(other).previous;
        self.link(list, before, Link::to(other), chunk, mark);
    }

    /// Puts a chunk between two neighbours.
    #[inline(always)]
    fn link(&mut self, list: &mut List, before: Link, behind: Link, chunk: ChunkId, mark: Mark) {
        *self.row(chunk) = Row { next: behind, previous: before, mark };
        match before.chunk() {
            None => list.first = Link::to(chunk),
            Some(before) => self.row(before).next = Link::to(chunk),
        }
        match behind.chunk() {
            None => list.last = Link::to(chunk),
            Some(behind) => self.row(behind).previous = Link::to(chunk),
        }
        list.length += 1;
    }

    /// Takes a chunk out of the list. Its row is written by the list that it comes to.
    pub fn unlink(&mut self, list: &mut List, chunk: ChunkId) {
        let Row { next, previous, .. } = *self.row(chunk);
        match previous.chunk() {
            None => list.first = next,
            Some(before) => self.row(before).next = next,
        }
        match next.chunk() {
            None => list.last = previous,
            Some(behind) => self.row(behind).previous = previous,
        }
        list.length -= 1;
    }

    /// Takes a chunk out of the list, which comes to no other.
    pub fn take_out(&mut self, list: &mut List, chunk: ChunkId) {
        self.unlink(list, chunk);
        self.row(chunk).mark = Mark::Unlisted;
    }
}
