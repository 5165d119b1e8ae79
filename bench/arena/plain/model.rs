//! What the same work is to do for one hand, told as simply as can be: lists are vectors, and who looks for something looks everywhere.
use crate::driver::Counts;
use crate::rows::ChunkId;
use std::collections::{BTreeSet, HashMap};

const TRIES: usize = 5;
const BULK: u64 = 64;

#[derive(Clone, Default)]
pub struct Class {
    pub per_page: u64,
    /// The first is handed out next.
    pub free: Vec<ChunkId>,
    /// The oldest first.
    pub order: Vec<ChunkId>,
    pub pages: Vec<u64>,
    pub evicted: u64,
}

struct Moving {
    page: u64,
    class: usize,
    to: Option<usize>,
    at: u64,
    busy: u64,
}

/// What a turn came to: whether a page moved, what was found, and whether the page came.
pub type Turned = Option<(Counts, bool)>;

#[derive(Default)]
pub struct Model {
    pub classes: Vec<Class>,
    pub keys: HashMap<u64, ChunkId>,
    /// The places of pages and chunks, for those that are noted.
    pub noted: BTreeSet<(u64, u64)>,
    pub sweeps: u64,
    /// How many references there are to a chunk.
    held: HashMap<(u64, u64), u64>,
    pool: Vec<u64>,
    moving: Option<Moving>,
}

fn number(chunk: ChunkId) -> (u64, u64) {
    (chunk.page, chunk.index)
}

fn take_out(list: &mut Vec<ChunkId>, chunk: ChunkId) {
    list.retain(|other| *other != chunk);
}

impl Model {
    /// With so many pages, and classes with so many chunks a page.
    pub fn new(per_page: &[u64], pages: u64) -> Model {
        let classes = per_page.iter().map(|per_page| Class { per_page: *per_page, ..Class::default() }).collect();
        // A page that was never granted is as one that went into the pool long ago.
        Model { classes, pool: (0..pages).rev().collect(), ..Model::default() }
    }

    fn key_of(&self, chunk: ChunkId) -> Option<u64> {
        self.keys.iter().find(|(_, other)| **other == chunk).map(|(key, _)| *key)
    }

    fn is_held(&self, chunk: ChunkId) -> bool {
        self.held.get(&number(chunk)).is_some_and(|count| *count > 0)
    }

    fn is_dead(&self, class: usize, chunk: ChunkId) -> bool {
        self.classes[class].order.contains(&chunk) && self.key_of(chunk).is_none() && !self.is_held(chunk)
    }

    fn note_if_dead(&mut self, chunk: ChunkId) {
        if (0..self.classes.len()).any(|class| self.is_dead(class, chunk)) {
            self.noted.insert(number(chunk));
        }
    }

    fn put_back(&mut self, class: usize, chunk: ChunkId) {
        take_out(&mut self.classes[class].order, chunk);
        self.classes[class].free.insert(0, chunk);
    }

    /// Puts the dead chunks back of which this is so, the oldest first.
    fn put_dead_back(&mut self, class: usize, is_looked_at: impl Fn(ChunkId) -> bool) {
        for chunk in self.classes[class].order.clone() {
            if is_looked_at(chunk) && self.is_dead(class, chunk) {
                self.put_back(class, chunk);
            }
        }
    }

    fn recover(&mut self, class: usize) {
        let pages = self.classes[class].pages.clone();
        let (followed, kept) = self.noted.iter().partition(|noted| pages.contains(&noted.0));
        self.noted = kept;
        let followed: BTreeSet<(u64, u64)> = followed;
        self.put_dead_back(class, |chunk| followed.contains(&number(chunk)));
    }

    pub fn sweep(&mut self, class: usize) {
        self.sweeps += 1;
        self.put_dead_back(class, |_| true);
    }

    fn give_page(&mut self, page: u64, class: usize) {
        self.classes[class].pages.push(page);
        (0..self.classes[class].per_page).for_each(|index| self.classes[class].free.insert(0, ChunkId { page, index }));
    }

    /// The first of the five oldest that nobody holds goes.
    fn evict(&mut self, class: usize) {
        let oldest = self.classes[class].order.iter().take(TRIES).copied().find(|chunk| !self.is_held(*chunk));
        if let Some(chunk) = oldest {
            self.keys.retain(|_, other| *other != chunk);
            self.classes[class].evicted += 1;
            self.put_back(class, chunk);
        }
    }

    fn make_free(&mut self, class: usize) {
        self.recover(class);
        if self.classes[class].free.is_empty() {
            self.sweep(class);
        }
        if !self.classes[class].free.is_empty() {
            return;
        }
        match self.pool.pop() {
            Some(page) => self.give_page(page, class),
            None => self.evict(class),
        }
    }

    /// False where there is no room.
    pub fn set(&mut self, class: usize, key: u64) -> bool {
        if self.classes[class].free.is_empty() {
            self.make_free(class);
        }
        if self.classes[class].free.is_empty() {
            return false;
        }
        let chunk = self.classes[class].free.remove(0);
        self.classes[class].order.push(chunk);
        let old = self.keys.insert(key, chunk);
        old.into_iter().for_each(|old| self.note_if_dead(old));
        true
    }

    pub fn delete(&mut self, key: u64) -> bool {
        let old = self.keys.remove(&key);
        old.into_iter().for_each(|old| self.note_if_dead(old));
        old.is_some()
    }

    pub fn touch(&mut self, key: u64) -> bool {
        let Some(&chunk) = self.keys.get(&key) else {
            return false;
        };
        let class = self.classes.iter_mut().find(|class| class.order.contains(&chunk)).expect("a class");
        take_out(&mut class.order, chunk);
        class.order.push(chunk);
        true
    }

    pub fn hold(&mut self, key: u64) -> Option<ChunkId> {
        let chunk = *self.keys.get(&key)?;
        *self.held.entry(number(chunk)).or_default() += 1;
        Some(chunk)
    }

    pub fn release(&mut self, chunk: ChunkId) {
        *self.held.get_mut(&number(chunk)).expect("a reference") -= 1;
        self.note_if_dead(chunk);
    }
}

/// Pages that move.
impl Model {
    pub fn reassign(&mut self, class: usize, to: Option<usize>) -> bool {
        if self.moving.is_some() || to == Some(class) || self.classes[class].pages.len() < 2 {
            return false;
        }
        self.moving = Some(Moving { page: self.classes[class].pages[0], class, to, at: 0, busy: 0 });
        true
    }

    pub fn turn(&mut self) -> Turned {
        let mut moving = self.moving.take()?;
        let (mut counts, mut is_due) = (Counts::default(), true);
        for _ in 0..BULK.min(self.classes[moving.class].per_page - moving.at) {
            let chunk = ChunkId { page: moving.page, index: moving.at };
            let found = self.visit(moving.class, chunk, &mut is_due);
            counts = counts.and(found);
            moving.busy += found.busy;
            moving.at += 1;
        }
        let has_passed = moving.at == self.classes[moving.class].per_page;
        let has_come = has_passed && moving.busy == 0;
        if has_come {
            self.finish(moving);
        } else if has_passed {
            self.moving = Some(Moving { at: 0, busy: 0, ..moving });
        } else {
            self.moving = Some(moving);
        }
        Some((counts, has_come))
    }

    fn finish(&mut self, moving: Moving) {
        self.classes[moving.class].pages.retain(|page| *page != moving.page);
        match moving.to {
            None => self.pool.push(moving.page),
            Some(to) => self.give_page(moving.page, to),
        }
    }

    fn visit(&mut self, class: usize, chunk: ChunkId, is_due: &mut bool) -> Counts {
        let is_free = self.classes[class].free.contains(&chunk);
        let is_out = self.classes[class].order.contains(&chunk);
        match self.key_of(chunk) {
            _ if self.is_held(chunk) => Counts { busy: 1, ..Counts::default() },
            Some(key) => self.save(class, chunk, key, is_due),
            None if is_free || is_out => {
                take_out(&mut self.classes[class].free, chunk);
                take_out(&mut self.classes[class].order, chunk);
                Counts { cleared: 1, ..Counts::default() }
            }
            None => Counts::default(),
        }
    }

    /// To the first free chunk off the page, which stands where the old one stood.
    fn save(&mut self, class: usize, chunk: ChunkId, key: u64, is_due: &mut bool) -> Counts {
        let off = |model: &Model| model.classes[class].free.iter().copied().find(|other| other.page != chunk.page);
        if *is_due || off(self).is_none() {
            self.sweep(class);
        }
        *is_due = false;
        let copy = off(self);
        let place = self.classes[class].order.iter().position(|other| *other == chunk).expect("a place");
        self.classes[class].order.remove(place);
        let Some(copy) = copy else {
            self.keys.remove(&key);
            return Counts { cleared: 1, evicted: 1, ..Counts::default() };
        };
        take_out(&mut self.classes[class].free, copy);
        self.classes[class].order.insert(place, copy);
        self.keys.insert(key, copy);
        Counts { cleared: 1, rescued: 1, ..Counts::default() }
    }
}
