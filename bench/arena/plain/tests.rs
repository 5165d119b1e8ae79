//! That the same work does what is said of it: `rustc --test -O --edition 2021 -o /tmp/same bench/arena/plain_works.rs && /tmp/same`
use crate::arena::{Arena, Hand};
use crate::dead::FEW;
use crate::driver::numbers::Numbers;
use crate::driver::{Counts, Turn};
use crate::items::Ref;
use crate::locks::Locks;
use crate::model::{Model, Turned};
use crate::rows::ChunkId;
use std::collections::{BTreeSet, HashMap};
use std::thread;

/// Pages of 128 chunks of the first class: two turns each.
const PAGE: u64 = 8_192;
const PER_PAGE: u64 = 128;

/// A memory of so many pages that is full of items of three words, whose keys are 0, 1, ..
fn filled(pages: u64) -> (Arena, Hand) {
    let (arena, mut hand) = (Arena::new(PAGE, pages), Hand::new(0));
    (0..pages * PER_PAGE).for_each(|key| store(&arena, &mut hand, key));
    (arena, hand)
}

fn store(arena: &Arena, hand: &mut Hand, key: u64) {
    arena.set(hand, key, &[key, 2 * key, 3 * key]).unwrap();
}

fn has(arena: &Arena, hand: &mut Hand, key: u64) -> bool {
    let item = arena.get(hand, key);
    let is_there = item.is_some();
    item.into_iter().for_each(|item| arena.release(hand, item));
    is_there
}

fn chunk_of(arena: &Arena, key: u64) -> ChunkId {
    arena.lock_stripe(0, arena.stripe_of(key)).find(key).unwrap().0
}

/// Of two chunks of a page that was handed out once, from its end on.
fn younger(one: ChunkId, other: ChunkId) -> ChunkId {
    if one.index < other.index { one } else { other }
}

fn sweeps(arena: &Arena) -> u64 {
    arena.lock_slabs(0).sweeps
}

fn evicted(arena: &Arena) -> u64 {
    arena.survey(0, false)[0].evicted
}

/// Forgets what is noted of the first class, and puts nothing back: as if nobody had noted it.
fn forget_hints(arena: &Arena) {
    for chunk in arena.hints.noted() {
        arena.hints.take_page(chunk.page);
        arena.hints.take_chunks(chunk.page, chunk.index / 64).for_each(drop);
    }
}

#[test]
fn dead_chunks_are_put_back_oldest_first() {
    for count in [1, 2, 3, FEW as u64, FEW as u64 + 1, 100] {
        for has_hints in [true, false] {
            let (arena, mut hand) = filled(3);
            // From the middle on, so that the order of deletes is no order of ages.
            let keys: Vec<u64> = (0..count).map(|place| (200 + 7 * place) % 384).collect();
            let mut chunks: Vec<ChunkId> = keys.iter().map(|key| chunk_of(&arena, *key)).collect();
            chunks.sort_by_key(|chunk| arena.lock_slabs(0).age(*chunk));
            keys.iter().for_each(|key| assert!(arena.delete(&hand, *key)));
            if !has_hints {
                forget_hints(&arena);
            }
            let before = sweeps(&arena);
            store(&arena, &mut hand, 1_000);
            assert_eq!(Some(chunk_of(&arena, 1_000)), chunks.pop(), "the youngest was put back last, and goes out first");
            chunks.reverse();
            assert_eq!(arena.lock_slabs(0).free_list(0), chunks);
            assert_eq!((sweeps(&arena) - before, evicted(&arena)), (u64::from(!has_hints), 0));
        }
    }
}

#[test]
fn who_leaves_a_chunk_dead_notes_it() {
    let (arena, mut hand) = filled(1);
    assert_eq!(arena.hints.noted(), []);
    let deleted = chunk_of(&arena, 5);
    arena.delete(&hand, 5);
    assert_eq!(arena.hints.noted(), [deleted]);
    let item = arena.get(&mut hand, 70).unwrap();
    let held = item.chunk;
    arena.delete(&hand, 70);
    assert_eq!(arena.hints.noted(), [deleted], "somebody refers to it");
    arena.release(&mut hand, item);
    assert_eq!(arena.hints.noted().len(), 2);
    store(&arena, &mut hand, 70);
    assert_eq!((chunk_of(&arena, 70), arena.hints.noted()), (younger(deleted, held), vec![]));
    let old = chunk_of(&arena, 6);
    store(&arena, &mut hand, 6);
    assert_eq!(arena.hints.noted(), [old], "it was overwritten");
    store(&arena, &mut hand, 5);
    let fresh = arena.pop(&mut arena.lock_slabs(0), 0).unwrap();
    assert_eq!(fresh, None);
    arena.delete(&hand, 9);
    arena.recover(&mut arena.lock_slabs(0), 0);
    let fresh = arena.pop(&mut arena.lock_slabs(0), 0).unwrap().unwrap();
    assert_eq!(arena.hints.noted(), []);
    arena.give_up(fresh, 1);
    assert_eq!(arena.hints.noted(), [fresh], "it was discarded");
}

#[test]
fn hints_are_followed_on_pages_of_the_class_alone() {
    let (arena, mut hand) = filled(2);
    arena.delete(&hand, 7);
    assert!(arena.set(&mut hand, 1_000, &[0; 20]).is_err(), "the other class has no page");
    assert_eq!(arena.hints.noted().len(), 1);
    let before = sweeps(&arena);
    store(&arena, &mut hand, 1_000);
    assert_eq!((sweeps(&arena) - before, evicted(&arena)), (0, 0));
}

#[test]
fn an_eviction_takes_the_oldest_of_five_that_nobody_holds() {
    let (arena, mut hand) = filled(2);
    assert!(arena.touch(&mut hand, 0));
    let held: Vec<Ref> = (1..=4).map(|key| arena.get(&mut hand, key).unwrap()).collect();
    let before = sweeps(&arena);
    store(&arena, &mut hand, 1_000);
    assert_eq!((sweeps(&arena) - before, evicted(&arena)), (1, 1));
    assert!(!has(&arena, &mut hand, 5) && has(&arena, &mut hand, 0));
    let last = arena.get(&mut hand, 6).unwrap();
    assert!(arena.set(&mut hand, 1_001, &[0; 3]).is_err(), "the five oldest are held");
    arena.release(&mut hand, last);
    store(&arena, &mut hand, 1_001);
    assert!(!has(&arena, &mut hand, 6) && has(&arena, &mut hand, 1));
    held.into_iter().for_each(|item| arena.release(&mut hand, item));
}

#[test]
fn a_turn_sweeps_before_its_first_saved_item_and_then_before_evictions() {
    // The first page's items, and how many chunks of the other page are free.
    for (live, free) in [(0, 0), (1, 0), (64, 0), (64, 64), (64, 128), (64, 10), (10, 10), (2, 1)] {
        let (arena, mut hand) = filled(2);
        (live..64).for_each(|key| assert!(arena.delete(&hand, chunk_key(key))));
        (0..free).for_each(|key| assert!(arena.delete(&hand, PER_PAGE + key)));
        assert!(arena.reassign(&hand, 0, None));
        let before = sweeps(&arena);
        let Turn::Went(counts) = arena.turn(&hand) else {
            panic!("a page has two turns");
        };
        let (rescued, evicted) = (live.min(free), live - live.min(free));
        assert_eq!(counts, Counts { cleared: 64, rescued, evicted, ..Counts::default() });
        let further = if rescued > 0 { evicted } else { evicted.saturating_sub(1) };
        assert_eq!(sweeps(&arena) - before, u64::from(live > 0) + further, "{live} items, {free} free");
        assert!((0..live).all(|key| has(&arena, &mut hand, chunk_key(key)) == (key < rescued)));
    }
}

/// The key whose chunk has this index on the first page, which was handed out from its end on.
fn chunk_key(index: u64) -> u64 {
    PER_PAGE - 1 - index
}

#[test]
fn a_lock_has_one_holder() {
    let locks = Locks::new((0..3).map(|_| 0_u64));
    assert!(locks.try_lock(0, 1).is_some_and(|_held| locks.try_lock(1, 1).is_none() && locks.try_lock(1, 2).is_some()));
    thread::scope(|scope| {
        for hand in 0..3 {
            let locks = &locks;
            scope.spawn(move || (0..30_000).for_each(|_| *locks.lock(hand, 1) += 1));
        }
    });
    assert_eq!((*locks.lock(0, 0), *locks.lock(0, 1)), (0, 90_000));
}

/// One hand's calls, in a memory and in the model.
struct Player {
    arena: Arena,
    hand: Hand,
    model: Model,
    numbers: Numbers,
    held: Vec<(Ref, Vec<u64>)>,
    stored: HashMap<u64, Vec<u64>>,
}

/// So small that pages are wanted.
const SMALL_PAGE: u64 = 2_048;
const PAGES: u64 = 6;
const KEYS: u64 = 150;

impl Player {
    fn new(seed: u64) -> Player {
        let arena = Arena::new(SMALL_PAGE, PAGES);
        let model = Model::new(&[32, 16, 8, 4], PAGES);
        Player { arena, hand: Hand::new(0), model, numbers: Numbers::new(seed), held: Vec::new(), stored: HashMap::new() }
    }

    fn set(&mut self, key: u64) {
        let (class, length) = [(0, 3), (0, 5), (0, 4), (2, 20)][self.numbers.below(4) as usize];
        let words: Vec<u64> = (0..length).map(|_| self.numbers.below(1 << 30)).collect();
        let is_stored = self.arena.set(&mut self.hand, key, &words).is_ok();
        assert_eq!(is_stored, self.model.set(class, key));
        if is_stored {
            self.stored.insert(key, words);
        }
    }

    fn hold(&mut self, key: u64) {
        let item = self.arena.get(&mut self.hand, key);
        assert_eq!(item.as_ref().map(|item| item.chunk), self.model.keys.get(&key).copied());
        let Some(item) = item else {
            return;
        };
        assert_eq!(self.arena.read(&item), self.stored[&key]);
        if self.held.len() < 12 {
            self.model.hold(key);
            self.held.push((item, self.stored[&key].clone()));
        } else {
            self.arena.release(&mut self.hand, item);
        }
    }

    fn release(&mut self) {
        if self.held.is_empty() {
            return;
        }
        let place = self.numbers.below(self.held.len() as u64) as usize;
        let (item, words) = self.held.swap_remove(place);
        assert_eq!(self.arena.read(&item), words);
        self.model.release(item.chunk);
        self.arena.release(&mut self.hand, item);
    }

    fn turn(&mut self) {
        let turned: Turned = match self.arena.turn(&self.hand) {
            Turn::Idle => None,
            Turn::Went(counts) => Some((counts, false)),
            Turn::Finished(counts) => Some((counts, true)),
        };
        assert_eq!(turned, self.model.turn());
    }

    fn go_on(&mut self) {
        let key = self.numbers.below(KEYS);
        match self.numbers.below(16) {
            0..=5 => self.set(key),
            6 => assert_eq!(self.arena.delete(&self.hand, key), self.model.delete(key)),
            7 => (key..key + 20).for_each(|key| assert_eq!(self.arena.delete(&self.hand, key), self.model.delete(key))),
            8..=9 => assert_eq!(self.arena.touch(&mut self.hand, key), self.model.touch(key)),
            10..=11 => self.hold(key),
            12 => self.release(),
            13 => {
                let (class, to) = (self.numbers.below(4) as usize, self.numbers.below(5).checked_sub(1).map(|to| to as usize));
                assert_eq!(self.arena.reassign(&self.hand, class, to), self.model.reassign(class, to));
            }
            _ => self.turn(),
        }
    }

    fn compare(&self) {
        let slabs = self.arena.lock_slabs(0);
        for (class, model) in self.model.classes.iter().enumerate() {
            assert_eq!((&slabs.free_list(class), &slabs.out_list(class)), (&model.free, &model.order));
            assert_eq!((&slabs.pages[class], slabs.evicted[class]), (&model.pages, model.evicted));
            assert_eq!(slabs.free_count(class), model.free.len() as u64);
            assert!(model.order.windows(2).all(|two| slabs.age(two[0]) < slabs.age(two[1])), "ages rise along the order");
        }
        let noted: Vec<_> = self.arena.hints.noted().into_iter().map(|chunk| (chunk.page, chunk.index)).collect();
        assert!(noted.iter().eq(&self.model.noted));
        let pages: BTreeSet<u64> = noted.iter().map(|noted| noted.0).collect();
        assert!(self.arena.hints.pages().eq(pages), "a page is noted as long as one of its chunks is");
        assert_eq!(slabs.sweeps, self.model.sweeps);
    }
}

#[test]
fn one_hand_finds_what_the_model_finds() {
    for seed in 0..8 {
        let mut player = Player::new(seed);
        for _ in 0..8_000 {
            player.go_on();
            player.compare();
        }
        let evictions: u64 = player.model.classes.iter().map(|class| class.evicted).sum();
        assert!(evictions > 20 && player.model.sweeps > 100, "{evictions} evictions, {} sweeps", player.model.sweeps);
    }
}

#[test]
fn many_hands_find_whole_items() {
    let (arena, mut first) = filled(4);
    thread::scope(|scope| {
        for number in 1..4 {
            let arena = &arena;
            scope.spawn(move || play(arena, Hand::new(number)));
        }
        for turn in 0..3_000 {
            arena.reassign(&first, 0, None);
            arena.turn(&first);
            let key = turn % 600;
            _ = arena.set(&mut first, key, &[key, 2 * key, 3 * key]);
        }
    });
    let dead = (0..600).filter(|key| arena.delete(&first, *key)).count() as u64;
    arena.survey(0, true);
    let slabs = arena.lock_slabs(0);
    assert!(dead > 0 && slabs.out_list(0).is_empty(), "{dead} items, and nobody refers to one");
}

fn play(arena: &Arena, hand: Hand) {
    let (mut hand, mut numbers) = (hand, Numbers::new(1));
    for _ in 0..60_000 {
        let key = numbers.below(600);
        match numbers.below(8) {
            0..=1 => _ = arena.set(&mut hand, key, &[key, 2 * key, 3 * key]),
            2 => _ = arena.delete(&hand, key),
            3 => _ = arena.touch(&mut hand, key),
            _ => {
                if let Some(item) = arena.get(&mut hand, key) {
                    assert_eq!(arena.read(&item), [key, 2 * key, 3 * key]);
                    arena.release(&mut hand, item);
                }
            }
        }
    }
    assert_eq!(hand.chunks, 0);
}
