//! Chunks, the pages that they are cut from, and lists of chunks.

/// The most chunks of a page.
const MOST_CHUNKS: u32 = 256;

/// A chunk by its place: its page, and its index there.
#[derive(Clone, Copy, PartialEq, Eq)]
pub struct Chunk(u32);

impl Chunk {
    pub fn new(page: usize, index: usize) -> Chunk {
        Chunk(page as u32 * MOST_CHUNKS + index as u32)
    }

    pub fn page(self) -> usize {
        (self.0 / MOST_CHUNKS) as usize
    }

    pub fn index(self) -> usize {
        (self.0 % MOST_CHUNKS) as usize
    }
}

#[derive(Clone, Copy, PartialEq, Eq)]
pub enum State {
    /// In no list: not cut, or cleared away while its page moves.
    Cleared,
    Free,
    Linked,
    /// Handed out, and no key leads to it.
    Unlinked,
}

#[derive(Clone, Copy)]
pub struct Header {
    pub state: State,
    /// Holds of all workers.
    pub holds: u32,
    /// Rises along a hand-out order.
    pub rank: u64,
    /// The chunks beside it in its list.
    next: Option<Chunk>,
    previous: Option<Chunk>,
}

impl Header {
    const CLEARED: Header = Header {
        state: State::Cleared,
        holds: 0,
        rank: 0,
        next: None,
        previous: None,
    };

    pub fn is_dead(&self) -> bool {
        self.state == State::Unlinked && self.holds == 0
    }

    pub fn is_idle(&self) -> bool {
        self.state == State::Linked && self.holds == 0
    }
}

/// The memory of a page. An item is its key, a stamp, its length in words, and the words.
pub struct Page {
    pub class: usize,
    pub words: Vec<u64>,
    headers: Vec<Header>,
}

/// All pages that were ever granted.
#[derive(Default)]
pub struct Pages {
    pub all: Vec<Page>,
}

impl Pages {
    /// One page more, of so many words.
    pub fn grant(&mut self, words: usize) -> usize {
        self.all.push(Page {
            class: 0,
            words: vec![0; words],
            headers: vec![Header::CLEARED; MOST_CHUNKS as usize],
        });
        self.all.len() - 1
    }

    pub fn header(&self, chunk: Chunk) -> &Header {
        &self.all[chunk.page()].headers[chunk.index()]
    }

    pub fn header_mut(&mut self, chunk: Chunk) -> &mut Header {
        &mut self.all[chunk.page()].headers[chunk.index()]
    }

    pub fn next(&self, chunk: Chunk) -> Option<Chunk> {
        self.header(chunk).next
    }
}

/// A doubly linked list, whose links stand in the headers of its chunks.
#[derive(Clone, Copy, Default)]
pub struct List {
    pub head: Option<Chunk>,
    tail: Option<Chunk>,
    length: usize,
}

impl List {
    pub fn len(&self) -> usize {
        self.length
    }

    pub fn push_front(&mut self, pages: &mut Pages, chunk: Chunk) {
        self.insert(pages, None, chunk, self.head);
    }

    pub fn push_back(&mut self, pages: &mut Pages, chunk: Chunk) {
        self.insert(pages, self.tail, chunk, None);
    }

    pub fn insert_before(&mut self, pages: &mut Pages, chunk: Chunk, behind: Chunk) {
        let before = pages.header(behind).previous;
        self.insert(pages, before, chunk, Some(behind));
    }

    pub fn remove(&mut self, pages: &mut Pages, chunk: Chunk) {
        let Header { next, previous, .. } = *pages.header(chunk);
        self.join(pages, previous, next);
        self.length -= 1;
    }

    fn insert(
        &mut self,
        pages: &mut Pages,
        before: Option<Chunk>,
        chunk: Chunk,
        behind: Option<Chunk>,
    ) {
        self.join(pages, before, Some(chunk));
        self.join(pages, Some(chunk), behind);
        self.length += 1;
    }

    /// Makes two chunks neighbours. None stands for the list's end.
    fn join(&mut self, pages: &mut Pages, before: Option<Chunk>, behind: Option<Chunk>) {
        match before {
            Some(chunk) => pages.header_mut(chunk).next = behind,
            None => self.head = behind,
        }
        match behind {
            Some(chunk) => pages.header_mut(chunk).previous = before,
            None => self.tail = before,
        }
    }
}
