//! One thread's calls: eight parts that are timed as a whole, and two tenths of which each call is timed by itself.
use super::trace::{call_of, key_of, Call};
use super::{Setting, Store};
use std::sync::Barrier;
use std::time::Instant;

pub const TENTHS: usize = 10;
pub const PARTS: usize = 8;

/// What the calls of a part found.
#[derive(Clone, Copy, Default)]
pub struct Part {
    pub gets: u64,
    pub hits: u64,
    pub sets: u64,
    pub refused: u64,
    /// Values that aren't their key's.
    pub wrong: u64,
}

/// What a thread found, in nanoseconds.
#[derive(Default)]
pub struct Tally {
    pub parts: [Part; PARTS],
    pub took: u128,
    pub longest_get: u128,
    pub longest_set: u128,
}

/// What one thread calls with: the bytes of a value begin with its key's.
struct Caller<'a, S: Store> {
    store: &'a S,
    worker: &'a mut S::Worker,
    value: Vec<u8>,
    into: Vec<u8>,
}

impl<'a, S: Store> Caller<'a, S> {
    fn new(store: &'a S, worker: &'a mut S::Worker, setting: &Setting) -> Caller<'a, S> {
        let most = setting.sizes[0].max(setting.sizes[1]).max(16);
        Caller { store, worker, value: vec![7; most], into: Vec::with_capacity(most) }
    }

    /// False where it was refused. The key is deleted then, so that nobody finds an old value. (memcached's `process_update_command`)
    fn set(&mut self, key: &[u8; 16], size: usize) -> bool {
        self.value[..16].copy_from_slice(key);
        let was_stored = self.store.set(self.worker, key, &self.value[..size]);
        if !was_stored {
            self.store.delete(self.worker, key);
        }
        was_stored
    }

    /// The value stands in `into` then.
    fn get(&mut self, key: &[u8; 16], touch: bool) -> bool {
        self.into.clear();
        self.store.get(self.worker, key, &mut self.into, touch)
    }

    fn call(&mut self, number: u32, size: usize, part: &mut Part) {
        let (number, call) = call_of(number);
        let key = key_of(number);
        if call == Call::Set {
            part.sets += 1;
            part.refused += u64::from(!self.set(&key, size));
            return;
        }
        part.gets += 1;
        if self.get(&key, call != Call::Get) {
            part.hits += 1;
            part.wrong += u64::from(!self.into.starts_with(&key));
        } else if call == Call::GetOrSet {
            self.set(&key, size);
        }
    }
}

/// Stores each key, the ones that are drawn most often last.
pub fn fill<S: Store>(store: &S, worker: &mut S::Worker, setting: &Setting) {
    let mut caller = Caller::new(store, worker, setting);
    for number in (0..setting.keys).rev() {
        caller.set(&key_of(number), setting.sizes[0]);
    }
}

/// How many keys have a value, and of how many bytes, keys included.
pub fn held<S: Store>(store: &S, worker: &mut S::Worker, setting: &Setting) -> (u64, u64) {
    let mut caller = Caller::new(store, worker, setting);
    let (mut items, mut bytes) = (0, 0);
    for number in 0..setting.keys {
        if caller.get(&key_of(number), false) {
            items += 1;
            bytes += 16 + caller.into.len() as u64;
        }
    }
    (items, bytes)
}

/// The threads wait for each other before the values' sizes change.
fn meet(meeting: &Barrier, setting: &Setting, place: usize) {
    if place == PARTS / 2 && setting.sizes[0] != setting.sizes[1] {
        meeting.wait();
    }
}

/// The thread's calls. What they took is counted from when the first thread started.
pub fn work<S: Store>(store: &S, mut worker: S::Worker, setting: &Setting, calls: &[u32], meeting: &Barrier, started: Instant) -> Tally {
    let (mut tally, tenth) = (Tally::default(), calls.len() / TENTHS);
    let mut caller = Caller::new(store, &mut worker, setting);
    for (place, part) in tally.parts.iter_mut().enumerate() {
        meet(meeting, setting, place);
        let size = setting.sizes[usize::from(place >= PARTS / 2)];
        for number in &calls[place * tenth..][..tenth] {
            caller.call(*number, size, part);
        }
    }
    tally.took = started.elapsed().as_nanos();
    time_each(&mut caller, setting.sizes[1], &calls[PARTS * tenth..], &mut tally);
    tally
}

/// What the longest get and the longest set took.
fn time_each<S: Store>(caller: &mut Caller<S>, size: usize, calls: &[u32], tally: &mut Tally) {
    for number in calls {
        let started = Instant::now();
        caller.call(*number, size, &mut Part::default());
        let took = started.elapsed().as_nanos();
        let longest = if call_of(*number).1 == Call::Set { &mut tally.longest_set } else { &mut tally.longest_get };
        *longest = took.max(*longest);
    }
}

#[cfg(test)]
mod tests {
    use super::{fill, held, work, PARTS};
    use crate::driver::trace::Trace;
    use crate::driver::{Setting, Store};
    use std::collections::HashMap;
    use std::sync::{Barrier, Mutex};
    use std::time::Instant;

    /// It refuses values of 32 bytes.
    struct Model(Mutex<HashMap<Vec<u8>, Vec<u8>>>);

    impl Store for Model {
        type Worker = ();

        fn open(_shards: u64, _shard_bytes: u64, workers: u64) -> (Model, Vec<()>) {
            (Model(Mutex::default()), vec![(); workers as usize])
        }

        fn set(&self, _worker: &mut (), key: &[u8], value: &[u8]) -> bool {
            let is_stored = value.len() != 32;
            if is_stored {
                self.0.lock().unwrap().insert(key.to_vec(), value.to_vec());
            }
            is_stored
        }

        fn get(&self, _worker: &mut (), key: &[u8], into: &mut Vec<u8>, _touch: bool) -> bool {
            self.0.lock().unwrap().get(key).map(|value| into.extend_from_slice(value)).is_some()
        }

        fn delete(&self, _worker: &mut (), key: &[u8]) {
            self.0.lock().unwrap().remove(key);
        }
    }

    /// In each tenth: a get of key 9, which the first one stores.
    #[test]
    fn stores_what_a_get_misses() {
        let setting = Setting { shards: 1, shard_bytes: 1 << 14, keys: 3, threads: 1, sizes: [16, 16] };
        let (model, _) = Model::open(1, 0, 1);
        let bytes: Vec<u8> = [9 << 2 | 3_u32].repeat(10).into_iter().flat_map(u32::to_le_bytes).collect();
        let trace = Trace::read(&bytes);
        let tally = work(&model, (), &setting, trace.of_thread(0, 1), &Barrier::new(1), Instant::now());
        for (place, part) in tally.parts.iter().enumerate() {
            assert_eq!([part.gets, part.hits, part.sets], [1, u64::from(place > 0), 0]);
        }
    }

    /// In each tenth: a get of key 1, a get of key 9, which there is none of, and a set of key 2.
    #[test]
    fn counts_what_each_part_finds() {
        let setting = Setting { shards: 1, shard_bytes: 1 << 14, keys: 3, threads: 1, sizes: [16, 32] };
        let (model, _) = Model::open(1, 0, 1);
        fill(&model, &mut (), &setting);
        assert_eq!(held(&model, &mut (), &setting), (3, 96));
        let bytes: Vec<u8> = [1 << 2, 9 << 2 | 1, 2 << 2 | 2_u32].repeat(10).into_iter().flat_map(u32::to_le_bytes).collect();
        let trace = Trace::read(&bytes);
        let tally = work(&model, (), &setting, trace.of_thread(0, 1), &Barrier::new(1), Instant::now());
        for (place, part) in tally.parts.iter().enumerate() {
            assert_eq!([part.gets, part.hits, part.sets, part.wrong], [2, 1, 1, 0]);
            assert_eq!(part.refused, u64::from(place >= PARTS / 2));
        }
        assert_eq!(held(&model, &mut (), &setting), (2, 64));
    }
}
