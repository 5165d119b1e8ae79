//! The memory: its words, where each stands, and who calls.
use crate::hints::Hints;
use crate::locks::{Held, Locks};
use crate::rows::ChunkId;
use crate::slabs::Slabs;
use crate::stripe::Stripe;
use std::hint::black_box;
use std::sync::atomic::{AtomicU64, Ordering::SeqCst};

/// The bytes of a chunk of each class.
const SIZES: [u64; 4] = [64, 128, 256, 512];
const STRIPES: u64 = 64;

/// Who calls.
pub struct Hand {
    pub number: u64,
    /// How many chunks it refers to.
    pub chunks: u64,
    pub stamps: u64,
}

impl Hand {
    /// The hand of this number of a memory that nothing was done with.
    pub fn new(number: u64) -> Hand {
        Hand { number, chunks: 0, stamps: 0 }
    }
}

pub struct Arena {
    slabs: Locks<Slabs>,
    stripes: Locks<Stripe>,
    pub hints: Hints,
    pub headers: Vec<AtomicU64>,
    words: Vec<AtomicU64>,
    /// The class of each page.
    pages: Vec<AtomicU64>,
    pub sizes: Vec<u64>,
    page: u64,
    words_a_page: u64,
    most: u64,
    stripe_count: u64,
}

fn zeros(count: u64) -> Vec<AtomicU64> {
    (0..count).map(|_| AtomicU64::new(0)).collect()
}

impl Arena {
    /// A memory of so many pages, each of so many bytes.
    pub fn new(page: u64, pages: u64) -> Arena {
        let most = page / SIZES[0];
        Arena {
            slabs: Locks::new([Slabs::new(SIZES.len(), most, pages)].into_iter()),
            stripes: Locks::new((0..STRIPES).map(|_| Stripe::default())),
            hints: Hints::new(),
            headers: zeros(pages * most),
            words: zeros(pages * page / 8),
            pages: zeros(pages),
            sizes: SIZES.to_vec(),
            page: black_box(page),
            words_a_page: black_box(page / 8),
            most: black_box(most),
            stripe_count: black_box(STRIPES),
        }
    }

    /// How many words a chunk of the class has room for.
    pub fn room_of(&self, class: usize) -> u64 {
        self.sizes[class] / 8
    }

    /// How many chunks a page of the class has.
    pub fn per_page(&self, class: usize) -> u64 {
        self.page / self.sizes[class]
    }

    pub fn page_count(&self) -> u64 {
        self.pages.len() as u64
    }

    /// Where the chunk's header stands. Those of a page stand side by side.
    pub fn header_place(&self, chunk: ChunkId) -> usize {
        (chunk.page * self.most + chunk.index) as usize
    }

    pub fn header(&self, chunk: ChunkId) -> &AtomicU64 {
        &self.headers[self.header_place(chunk)]
    }

    pub fn word(&self, chunk: ChunkId, room: u64, place: u64) -> &AtomicU64 {
        &self.words[(chunk.page * self.words_a_page + chunk.index * room + place) as usize]
    }

    /// How many words the chunk has room for, where its page's class stays.
    pub fn room(&self, chunk: ChunkId) -> u64 {
        self.room_of(self.pages[chunk.page as usize].load(SeqCst) as usize)
    }

    /// The page is of this class from now on.
    pub fn tell_page(&self, page: u64, class: usize) {
        self.pages[page as usize].store(class as u64, SeqCst);
    }

    pub fn lock_slabs(&self, hand: u64) -> Held<'_, Slabs> {
        self.slabs.lock(hand, 0)
    }

    pub fn stripe_of(&self, key: u64) -> usize {
        (key % self.stripe_count) as usize
    }

    pub fn lock_stripe(&self, hand: u64, stripe: usize) -> Held<'_, Stripe> {
        self.stripes.lock(hand, stripe)
    }

    pub fn try_stripe(&self, hand: u64, stripe: usize) -> Option<Held<'_, Stripe>> {
        self.stripes.try_lock(hand, stripe)
    }
}
