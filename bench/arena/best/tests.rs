//! That it is right: `rustc --test -O --edition 2021 -o /tmp/best bench/arena/best.rs && /tmp/best`
use crate::cache::{Cache, Hand, Hint, Ref};
use crate::driver::numbers::Numbers;
use crate::driver::Turn;
use std::collections::HashMap;
use std::thread;

const PAGE: u64 = 2_048;
const PAGES: u64 = 12;
const KEYS: u64 = 300;
/// Where threads run at once the memory is so small that they meet.
const SMALL_PAGE: u64 = 1_024;
const FEW_PAGES: u64 = 8;
const FEW_KEYS: u64 = 40;

/// The last class has chunks for so many words.
const MOST_WORDS: u64 = 54;

/// An item of these words, which tell whose they are and which.
fn words_of(key: u64, number: u64, length: u64) -> Vec<u64> {
    (0..length).map(|place| key << 32 | number << 8 | place).collect()
}

fn read(cache: &Cache, item: &Ref) -> Vec<u64> {
    cache.words(item).collect()
}

/// What one hand knows of a memory that is its alone.
struct Player {
    cache: Cache,
    hand: Hand,
    numbers: Numbers,
    stored: HashMap<u64, Vec<u64>>,
    hints: HashMap<u64, Hint>,
    kept: Vec<(Ref, Vec<u64>)>,
    missed: u64,
    evicted: u64,
}

impl Player {
    fn set(&mut self, key: u64, number: u64) {
        let length = [3, 3, 8, 20, MOST_WORDS][self.numbers.below(5) as usize];
        let words = words_of(key, number, length);
        if self.cache.set(key, &words).is_ok() {
            self.stored.insert(key, words);
        }
    }

    fn delete(&mut self, key: u64) {
        let was_stored = self.stored.remove(&key).is_some();
        let was_there = self.cache.delete(key);
        assert!(was_stored || !was_there);
        self.missed += u64::from(was_stored && !was_there);
    }

    /// Where the item isn't what was stored last, it was evicted.
    fn get(&mut self, key: u64) {
        let Some(item) = self.cache.get(&mut self.hand, key) else {
            self.missed += u64::from(self.stored.remove(&key).is_some());
            return;
        };
        assert_eq!(self.stored[&key], read(&self.cache, &item));
        self.hints.insert(key, self.cache.hint(&item));
        match self.numbers.below(4) {
            0 if self.kept.len() < 40 => self.kept.push((item, self.stored[&key].clone())),
            _ => self.cache.release(&mut self.hand, item),
        }
    }

    fn follow(&mut self, key: u64) {
        let Some(hint) = self.hints.get(&key) else {
            return;
        };
        if let Some(item) = self.cache.again(&mut self.hand, *hint) {
            assert_eq!(self.stored[&key], read(&self.cache, &item));
            self.cache.release(&mut self.hand, item);
        }
    }

    /// What is kept is as it was when it was got.
    fn release(&mut self) {
        if self.kept.is_empty() {
            return;
        }
        let place = self.numbers.below(self.kept.len() as u64) as usize;
        let (item, words) = self.kept.swap_remove(place);
        assert_eq!(words, read(&self.cache, &item));
        self.cache.release(&mut self.hand, item);
    }

    fn go_on(&mut self, number: u64) {
        let key = self.numbers.below(KEYS);
        match self.numbers.below(12) {
            0..=3 => self.set(key, number),
            4 => self.delete(key),
            5..=6 => self.get(key),
            7 => _ = self.cache.touch(key),
            8 => self.follow(key),
            9 => self.release(),
            10 => _ = self.cache.reassign(1 + self.numbers.below(4) as usize, self.numbers.below(5) as usize),
            _ => match self.cache.turn() {
                Turn::Went(counts) | Turn::Finished(counts) => self.evicted += counts.evicted,
                Turn::Idle => {}
            },
        }
    }
}

#[test]
fn one_hand_finds_what_it_stored() {
    let (cache, mut hands) = Cache::new(PAGE, PAGES, 1);
    let (hand, numbers) = (hands.remove(0), Numbers::new(7));
    let mut player =
        Player { cache, hand, numbers, stored: HashMap::new(), hints: HashMap::new(), kept: Vec::new(), missed: 0, evicted: 0 };
    (0..2_000_000).for_each(|number| player.go_on(number % (1 << 24)));
    (0..KEYS).for_each(|key| player.get(key));
    let mut slabs = player.cache.slabs.lock();
    let evicted = player.evicted + (1..=4).map(|class| slabs.evicted(class)).sum::<u64>();
    assert!(player.missed > 1_000 && player.missed <= evicted, "{} missed, {evicted} evicted", player.missed);
}

fn is_whole(words: &[u64], key: u64) -> bool {
    words.iter().enumerate().all(|(place, word)| word >> 32 == key && word & !255 == words[0] & !255 && word & 255 == place as u64)
}

fn play(cache: &Cache, hand: &mut Hand, thread: u64) {
    let mut numbers = Numbers::new(thread);
    let mut hints = HashMap::new();
    for number in 0..2_000_000 {
        let key = numbers.below(FEW_KEYS);
        let item = match numbers.below(8) {
            0..=1 => {
                _ = cache.set(key, &words_of(key, number % (1 << 24), [3, 12, 40][numbers.below(3) as usize]));
                None
            }
            2 => {
                cache.delete(key);
                None
            }
            3 => {
                cache.touch(key);
                None
            }
            4..=6 => cache.get(hand, key),
            _ => hints.get(&key).and_then(|hint| cache.again(hand, *hint)),
        };
        if let Some(item) = item {
            hints.insert(key, cache.hint(&item));
            assert!(is_whole(&read(cache, &item), key));
            cache.release(hand, item);
        }
    }
}

/// Moves so many pages as can be moved meanwhile.
fn move_pages(cache: &Cache) {
    let mut numbers = Numbers::new(99);
    for _ in 0..1_000_000 {
        cache.reassign(1 + numbers.below(4) as usize, numbers.below(5) as usize);
        cache.turn();
    }
}

/// Moves all pages of the class but one to the pool.
fn empty(cache: &Cache, class: usize) {
    let mut turns = 0..1_000;
    loop {
        while !matches!(cache.turn(), Turn::Idle) {
            turns.next().expect("a page with no items doesn't come");
        }
        if !cache.reassign(class, 0) {
            return;
        }
    }
}

#[test]
fn many_hands_find_whole_items_and_leave_no_chunk() {
    let (cache, mut hands) = Cache::new(SMALL_PAGE, FEW_PAGES, 4);
    // Each class gets a page, and keeps one.
    [3, 12, 20, 40].into_iter().for_each(|length| cache.set(length, &words_of(length, 0, length)).unwrap());
    thread::scope(|scope| {
        for (thread, hand) in hands.iter_mut().enumerate() {
            let cache = &cache;
            scope.spawn(move || play(cache, hand, thread as u64));
        }
        move_pages(&cache);
    });
    (0..FEW_KEYS).for_each(|key| _ = cache.delete(key));
    // A page on its way comes, and then all pages go to the pool but one of each class.
    (1..=4).for_each(|class| empty(&cache, class));
    let evicted = cache.slabs.lock().evicted(4);
    let room = (FEW_PAGES - 3) * SMALL_PAGE / 512;
    (0..room).for_each(|key| cache.set(key, &words_of(key, 0, MOST_WORDS)).unwrap());
    assert_eq!(cache.slabs.lock().evicted(4), evicted);
    cache.set(room, &words_of(room, 0, MOST_WORDS)).unwrap();
    assert_eq!(cache.slabs.lock().evicted(4), evicted + 1);
}
