//! The mover's turns on one thread: pages of memories of three sizes that move to the pool.
use super::{open_one, show, time, Counts, Memory, Turn};
use std::time::Duration;

/// How many of the items of a page are held.
const HELD: u64 = 255;
const PASSES: u64 = 1_000;

#[derive(Clone, Copy, PartialEq, Eq)]
enum Size {
    Tiny,
    Small,
    Large,
}

impl Size {
    fn pages(self) -> u64 {
        match self {
            Size::Tiny => 2,
            Size::Small => 5,
            Size::Large => 64,
        }
    }

    /// How many chunks of 64 bytes a page has. So many keys are a block.
    fn per_page(self) -> u64 {
        match self {
            Size::Tiny => 16,
            Size::Small | Size::Large => 256,
        }
    }

    fn room(self) -> u64 {
        self.pages() * self.per_page()
    }

    fn turns(self) -> u64 {
        self.per_page().div_ceil(64)
    }

    fn rounds(self) -> u64 {
        match self {
            Size::Tiny => 1_000,
            Size::Small => 100,
            Size::Large => 20,
        }
    }

    /// The first key of the block behind this one's.
    fn next_block(self, first: u64) -> u64 {
        (first + self.per_page()) % self.room()
    }

    /// A memory of this size that is full, and its hand.
    fn filled<M: Memory>(self) -> (M, M::Hand) {
        let (memory, mut hand) = open_one::<M>(64 * self.per_page(), self.pages());
        set_keys(&memory, &mut hand, 0, self.room());
        (memory, hand)
    }
}

/// What the page that moves is like.
#[derive(Clone, Copy)]
enum Page {
    /// All of its chunks are free.
    Free,
    /// Each of its chunks has an item, and another page is free.
    Full,
    /// The same, but each second chunk is free, and stands before those of the other page in the free list.
    Half,
    /// Each of its chunks has an item, and no chunk is free.
    Crowded,
}

impl Page {
    fn name(self) -> &'static str {
        match self {
            Page::Free => "clear",
            Page::Full => "rescue",
            Page::Half => "rescue-half",
            Page::Crowded => "evict",
        }
    }

    /// How many items there are when the page begins to move.
    fn live(self, size: Size) -> u64 {
        match self {
            Page::Free | Page::Full => size.room() - size.per_page(),
            Page::Half => size.room() - size.per_page() - size.per_page() / 2,
            Page::Crowded => size.room(),
        }
    }

    /// How many chunks of the page are told of: those with items, or else all.
    fn operations(self, size: Size) -> u64 {
        match self {
            Page::Half => size.per_page() / 2,
            _ => size.per_page(),
        }
    }

    /// What the turns find.
    fn found(self, size: Size) -> Counts {
        let (cleared, saved) = (size.per_page(), self.operations(size));
        match self {
            Page::Free => Counts { cleared, ..Counts::default() },
            Page::Full | Page::Half => Counts { cleared, rescued: saved, ..Counts::default() },
            Page::Crowded => Counts { cleared, evicted: saved, ..Counts::default() },
        }
    }

    /// Makes the first page so, whose block of keys begins here, as does that of the last page.
    fn prepare<M: Memory>(self, memory: &M, hand: &mut M::Hand, size: Size, first: u64, last: u64) {
        match self {
            Page::Free => delete_and_sweep(memory, hand, first, size.per_page(), 1),
            Page::Full => delete_and_sweep(memory, hand, last, size.per_page(), 1),
            Page::Half => {
                delete_and_sweep(memory, hand, last, size.per_page(), 1);
                delete_and_sweep(memory, hand, first, size.per_page() / 2, 2);
            }
            Page::Crowded => {}
        }
    }

    /// Fills the memory again once the page is in the pool. The first block stands on the last page then, and each other one on a page of
    /// its own.
    fn restore<M: Memory>(self, memory: &M, hand: &mut M::Hand, size: Size, first: u64, last: u64) {
        match self {
            Page::Free | Page::Crowded => {}
            Page::Full => {
                delete_and_sweep(memory, hand, first, size.per_page(), 1);
                set_keys(memory, hand, last, size.per_page());
            }
            Page::Half => {
                delete_and_sweep(memory, hand, first + 1, size.per_page() / 2, 2);
                set_keys(memory, hand, last, size.per_page());
            }
        }
        set_keys(memory, hand, first, size.per_page());
    }
}

fn set_keys<M: Memory>(memory: &M, hand: &mut M::Hand, first: u64, count: u64) {
    for key in first..first + count {
        assert!(memory.set(hand, key, &[key, key, first]));
    }
}

fn delete_and_sweep<M: Memory>(memory: &M, hand: &mut M::Hand, first: u64, count: u64, stride: u64) {
    for place in 0..count {
        assert!(memory.delete(hand, first + place * stride));
    }
    memory.sweep(1);
}

/// So many turns, or fewer where the page comes to the pool before, and what they found.
fn turns<M: Memory>(memory: &M, hand: &mut M::Hand, most: u64) -> Counts {
    let mut found = Counts::default();
    for _ in 0..most {
        match memory.turn(hand) {
            Turn::Idle => panic!("no page moves"),
            Turn::Went(counts) => found = found.and(counts),
            Turn::Finished(counts) => return found.and(counts),
        }
    }
    found
}

fn show_moves<M: Memory>(page: Page, size: Size) {
    let (memory, mut hand) = size.filled::<M>();
    let (memory, hand) = (&memory, &mut hand);
    let mut took = Duration::ZERO;
    let (mut first, mut last) = (0, size.room() - size.per_page());
    for _ in 0..size.rounds() {
        page.prepare(memory, hand, size, first, last);
        assert!(memory.reassign(hand, 1, 0));
        let mut found = Counts::default();
        took += time(|| found = turns(memory, hand, size.turns()));
        assert_eq!(found, page.found(size));
        page.restore(memory, hand, size, first, last);
        (first, last) = (size.next_block(first), first);
    }
    show(page.name(), page.live(size), took, size.rounds() * page.operations(size));
}

/// What a chunk costs whose item is held. The page's other chunk is cleared before.
fn show_held<M: Memory>(size: Size) {
    let (memory, mut hand) = size.filled::<M>();
    for key in 0..HELD {
        memory.get(&mut hand, key).unwrap();
    }
    assert!(memory.reassign(&mut hand, 1, 0));
    turns(&memory, &mut hand, size.turns());
    let mut found = Counts::default();
    let took = time(|| found = turns(&memory, &mut hand, PASSES * size.turns()));
    assert_eq!(found, Counts { busy: PASSES * HELD, ..Counts::default() });
    show("busy", size.room(), took, PASSES * HELD);
}

/// What a chunk costs that a sweep looks at.
fn show_sweeps<M: Memory>(size: Size) {
    let (memory, _hand) = size.filled::<M>();
    let took = time(|| (0..size.rounds()).for_each(|_| memory.sweep(1)));
    show("sweep", size.room(), took, size.rounds() * size.room());
}

pub fn run<M: Memory>() {
    for size in [Size::Tiny, Size::Small, Size::Large] {
        for page in [Page::Free, Page::Full, Page::Half, Page::Crowded] {
            show_moves::<M>(page, size);
        }
        if size != Size::Tiny {
            show_held::<M>(size);
        }
        if M::SWEEPS {
            show_sweeps::<M>(size);
        }
    }
}
