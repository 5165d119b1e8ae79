//! A shard whose values are in chunks of some sizes, in pages of which each is cut for one size, and stays so.
use crate::chains::{Chained, Chains};
use crate::order::{Linked, Links, Order};
use crate::pages::Page;
use crate::shards::Shard;

const PAGE: usize = 16_384;
const FIRST: usize = 64;
const HEADER: usize = size_of::<Header>();

/// What is known of a chunk. It counts as a part of it, as the arena's does.
struct Header {
    hash: u32,
    next: u32,
    links: Links,
    page: u16,
    /// Where the chunk's bytes begin in the page.
    begin: u16,
    value: u16,
    key: u8,
    class: u8,
}

impl Linked for Header {
    fn links(&mut self) -> &mut Links {
        &mut self.links
    }
}

impl Chained for Header {
    fn hash(&self) -> u32 {
        self.hash
    }

    fn next(&mut self) -> &mut u32 {
        &mut self.next
    }
}

/// The chunks of one size.
struct Class {
    size: usize,
    used: Order,
    free: Order,
}

pub struct Slabs<P> {
    chains: Chains,
    classes: Vec<Class>,
    headers: Vec<Header>,
    /// The chunks' bytes, without their headers.
    pages: Vec<P>,
    limit: usize,
}

/// The sizes that the arena is configured with: each is a quarter more than the one before, in steps of 8.
fn sizes() -> Vec<usize> {
    let raws = std::iter::successors(Some(FIRST), |size| Some((size * 5 / 4).next_multiple_of(8)));
    raws.take_while(|size| size * 5 < PAGE * 4).chain([PAGE]).collect()
}

impl<P: Page> Slabs<P> {
    /// The lowest class whose chunks have room for so many bytes.
    fn class_for(&self, bytes: usize) -> Option<usize> {
        let class = self.classes.partition_point(|class| class.size < HEADER + bytes);
        (class < self.classes.len()).then_some(class)
    }

    /// Cuts a page for the class, if there may be one more: within the limit, or beyond it as the class's first.
    fn cut_page(&mut self, class: usize) {
        let has_page = self.classes[class].used.oldest().is_some();
        if (self.pages.len() + 1) * PAGE > self.limit && has_page {
            return;
        }
        let (page, size) = (self.pages.len() as u16, self.classes[class].size);
        let count = PAGE / size;
        let bytes = size - HEADER + P::COUNT;
        self.pages.push(P::new(count * bytes));
        for place in 0..count {
            let begin = (place * bytes + P::COUNT) as u16;
            let chunk = self.headers.len() as u32;
            self.headers.push(Header { hash: 0, next: 0, links: Links::NONE, page, begin, value: 0, key: 0, class: class as u8 });
            self.classes[class].free.push(&mut self.headers, chunk);
        }
    }

    /// The chunk has no item any more.
    fn empty(&mut self, chunk: u32) {
        self.chains.take_out(&mut self.headers, chunk);
        let class = &mut self.classes[usize::from(self.headers[chunk as usize].class)];
        class.used.take_out(&mut self.headers, chunk);
        class.free.push(&mut self.headers, chunk);
    }

    /// A chunk of the class in no list: a free one, one of a new page, or the one that was used longest ago.
    fn chunk(&mut self, class: usize) -> Option<u32> {
        if let Some(chunk) = self.classes[class].free.pop(&mut self.headers) {
            return Some(chunk);
        }
        self.cut_page(class);
        if let Some(oldest) = self.classes[class].used.oldest().filter(|_| self.classes[class].free.oldest().is_none()) {
            self.empty(oldest);
        }
        self.classes[class].free.pop(&mut self.headers)
    }

    fn find(&mut self, hash: u32, key: &[u8]) -> Option<u32> {
        let pages = &self.pages;
        self.chains.find(&mut self.headers, hash, |header| {
            usize::from(header.key) == key.len() && pages[usize::from(header.page)].has(usize::from(header.begin), key)
        })
    }

    /// Puts the value of a chunk's item behind the bytes that are there.
    fn read(&self, chunk: u32, into: &mut Vec<u8>) {
        let header = &self.headers[chunk as usize];
        let (page, begin) = (&self.pages[usize::from(header.page)], usize::from(header.begin));
        page.hold(begin);
        page.read(begin + behind::<P>(usize::from(header.key)), usize::from(header.value), into);
        page.release(begin);
    }

    fn write(&mut self, chunk: u32, hash: u32, key: &[u8], value: &[u8]) {
        let header = &mut self.headers[chunk as usize];
        (header.hash, header.key, header.value) = (hash, key.len() as u8, value.len() as u16);
        let (page, begin) = (&mut self.pages[usize::from(header.page)], usize::from(header.begin));
        page.write(begin, key);
        page.write(begin + behind::<P>(key.len()), value);
    }
}

/// Where the value of a key of this length begins.
fn behind<P: Page>(key: usize) -> usize {
    key.next_multiple_of(P::STEP)
}

impl<P: Page> Shard for Slabs<P> {
    fn new(limit: usize) -> Slabs<P> {
        let classes = sizes().into_iter().map(|size| Class { size, used: Order::new(), free: Order::new() }).collect();
        Slabs { chains: Chains::new(), classes, headers: Vec::with_capacity(limit / FIRST), pages: Vec::new(), limit }
    }

    /// Where it is refused, the key has what it had.
    fn set(&mut self, hash: u32, key: &[u8], value: &[u8]) -> bool {
        let Some(class) = self.class_for(behind::<P>(key.len()) + value.len()) else {
            return false;
        };
        let old = self.find(hash, key);
        if let Some(chunk) = old.filter(|chunk| usize::from(self.headers[*chunk as usize].class) == class) {
            self.write(chunk, hash, key, value);
            self.classes[class].used.bump(&mut self.headers, chunk);
            return true;
        }
        let Some(chunk) = self.chunk(class) else {
            return false;
        };
        if let Some(old) = old {
            self.empty(old);
        }
        self.write(chunk, hash, key, value);
        self.classes[class].used.push(&mut self.headers, chunk);
        self.chains.put(&mut self.headers, chunk);
        true
    }

    fn get(&mut self, hash: u32, key: &[u8], into: &mut Vec<u8>, touch: bool) -> bool {
        let Some(chunk) = self.find(hash, key) else {
            return false;
        };
        self.read(chunk, into);
        if touch {
            let class = usize::from(self.headers[chunk as usize].class);
            self.classes[class].used.bump(&mut self.headers, chunk);
        }
        true
    }

    fn delete(&mut self, hash: u32, key: &[u8]) {
        if let Some(chunk) = self.find(hash, key) {
            self.empty(chunk);
        }
    }
}

#[cfg(test)]
mod tests {
    use super::{sizes, Header, Slabs, PAGE};
    use crate::shards::Shard;

    #[test]
    fn has_the_sizes_of_the_arena() {
        assert_eq!(sizes()[..8], [64, 80, 104, 136, 176, 224, 280, 352]);
        assert_eq!(sizes().last(), Some(&PAGE));
        assert_eq!(size_of::<Header>(), 24);
    }

    #[test]
    fn cuts_one_page_for_another_size_when_all_are_cut() {
        let mut shard = Slabs::<Box<[u8]>>::new(2 * PAGE);
        for hash in 0..1_000_u32 {
            assert!(shard.set(hash, &hash.to_le_bytes(), &[7; 8]));
        }
        assert_eq!(shard.chains.count(), 512);
        for hash in 1_000..2_000_u32 {
            assert!(shard.set(hash, &hash.to_le_bytes(), &[7; 1_000]));
        }
        assert_eq!(shard.pages.len(), 3);
        assert!(shard.get(999, &999_u32.to_le_bytes(), &mut Vec::new(), false));
    }

    #[test]
    fn frees_the_old_chunk_of_a_value_that_grows() {
        let mut shard = Slabs::<Box<[u8]>>::new(2 * PAGE);
        assert!(shard.set(1, b"key", &[7; 8]) && shard.set(1, b"key", &[8; 100]));
        let mut value = Vec::new();
        assert!(shard.get(1, b"key", &mut value, true));
        assert_eq!(value, [8; 100]);
        assert_eq!(shard.chains.count(), 1);
    }
}
