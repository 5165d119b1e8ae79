//! The calls that store on a condition, by one thread and by several.
use noddrefil::{Cache, Config, Deletion, Error, Swap, Worker};
use std::collections::HashSet;
use std::sync::Barrier;

const THREADS: u64 = 4;
const ROUNDS: u64 = 5_000;

fn cache(workers: u64) -> Cache {
    Cache::open(&Config::for_bytes(1 << 20, 100, workers).unwrap().with_hash_key(3, 4)).unwrap()
}

fn workers(cache: &Cache) -> Vec<Worker> {
    (0..THREADS).map(|_| cache.worker().unwrap()).collect()
}

/// What the key has, and the version of that.
fn value_of(worker: &mut Worker, key: &[u8]) -> Option<(Vec<u8>, u64)> {
    let mut value = Vec::new();
    let version = worker.get_with_version(key, &mut value).unwrap();
    version.map(|version| (value, version))
}

#[test]
fn add_stores_where_there_is_no_value() {
    let mut worker = cache(1).worker().unwrap();
    assert!(worker.add(b"a", b"1").unwrap());
    assert!(!worker.add(b"a", b"2").unwrap());
    assert_eq!(value_of(&mut worker, b"a").unwrap().0, b"1");
    worker.delete(b"a").unwrap();
    assert!(worker.add(b"a", b"3").unwrap());
    assert_eq!(value_of(&mut worker, b"a").unwrap().0, b"3");
}

#[test]
fn replace_stores_where_there_is_a_value() {
    let mut worker = cache(1).worker().unwrap();
    assert!(!worker.replace(b"a", b"1").unwrap());
    assert_eq!(value_of(&mut worker, b"a"), None);
    worker.set(b"a", b"2").unwrap();
    assert!(worker.replace(b"a", b"3").unwrap());
    assert_eq!(value_of(&mut worker, b"a").unwrap().0, b"3");
}

#[test]
fn compare_and_set_stores_where_the_version_is_given() {
    let mut worker = cache(1).worker().unwrap();
    assert_eq!(worker.compare_and_set(b"a", b"1", 1), Ok(Swap::Missing));
    worker.set(b"a", b"2").unwrap();
    let (_, version) = value_of(&mut worker, b"a").unwrap();
    assert_eq!(worker.compare_and_set(b"a", b"3", version + 1), Ok(Swap::Exists));
    assert_eq!(value_of(&mut worker, b"a"), Some((b"2".to_vec(), version)));
    assert_eq!(worker.compare_and_set(b"a", b"4", version), Ok(Swap::Stored));
    assert_eq!(worker.compare_and_set(b"a", b"5", version), Ok(Swap::Exists));
    assert_eq!(value_of(&mut worker, b"a").unwrap().0, b"4");
    worker.delete(b"a").unwrap();
    assert_eq!(worker.compare_and_set(b"a", b"6", version), Ok(Swap::Missing));
}

#[test]
fn each_store_of_a_key_has_a_version_of_its_own() {
    let cache = cache(THREADS);
    let mut workers = workers(&cache);
    let mut versions = HashSet::new();
    for round in 0..400u64 {
        let worker = &mut workers[(round % THREADS) as usize];
        match round % 5 {
            0 => worker.set(b"a", b"1").unwrap(),
            1 => assert!(worker.replace(b"a", b"1").unwrap()),
            2 => assert!(worker.delete(b"a").unwrap() && worker.add(b"a", b"1").unwrap()),
            3 => assert!(worker.delete(b"a").unwrap() && worker.add(b"a", b"2").unwrap()),
            _ => {
                let (_, version) = value_of(worker, b"a").unwrap();
                assert_eq!(worker.compare_and_set(b"a", b"1", version), Ok(Swap::Stored));
            }
        }
        assert!(versions.insert(value_of(worker, b"a").unwrap().1));
    }
}

#[test]
fn a_read_leaves_the_version() {
    let mut worker = cache(1).worker().unwrap();
    worker.set(b"a", b"1").unwrap();
    let before = value_of(&mut worker, b"a");
    worker.touch(b"a").unwrap();
    worker.set(b"b", b"1").unwrap();
    assert!(!worker.add(b"a", b"2").unwrap());
    assert_eq!(value_of(&mut worker, b"a"), before);
}

#[test]
fn reads_a_long_value_with_its_version() {
    let mut worker = cache(1).worker().unwrap();
    let long = vec![7; 10_000];
    worker.set(b"long", &long).unwrap();
    let mut value = b"old ".to_vec();
    let version = worker.get_with_version(b"long", &mut value).unwrap().unwrap();
    assert_eq!(value, [b"old ".as_slice(), &long].concat());
    assert_eq!(worker.compare_and_set(b"long", b"short", version), Ok(Swap::Stored));
    assert_eq!(worker.get_with_version(b"none", &mut value), Ok(None));
    assert_eq!(value.len(), 10_004);
}

#[test]
fn refuses_keys_and_values() {
    let mut worker = cache(1).worker().unwrap();
    let (mut value, large) = (b"kept".to_vec(), [0; 20_000]);
    assert_eq!(worker.add(b"", b"1"), Err(Error::BadKey));
    assert_eq!(worker.replace(&[1; 251], b"1"), Err(Error::BadKey));
    assert_eq!(worker.compare_and_set(b"", b"1", 1), Err(Error::BadKey));
    assert_eq!(worker.get_with_version(&[1; 251], &mut value), Err(Error::BadKey));
    assert_eq!(value, b"kept");
    assert_eq!(worker.add(b"a", &large), Err(Error::TooLarge));
    worker.set(b"a", b"1").unwrap();
    let before = value_of(&mut worker, b"a");
    assert_eq!(worker.replace(b"a", &large), Err(Error::TooLarge));
    assert_eq!(value_of(&mut worker, b"a"), before);
}

#[test]
fn a_value_that_is_refused_evicts_nothing() {
    let cache = cache(1);
    let (mut worker, mut tender) = (cache.worker().unwrap(), cache.tender().unwrap());
    let large = [1; 3_000];
    for place in 0..1_000u32 {
        worker.set(&place.to_le_bytes(), &large).unwrap();
    }
    worker.set(b"small", b"1").unwrap();
    let before = tender.stats().unwrap();
    assert!(before.classes.iter().any(|class| class.evictions > 0));
    let (_, version) = value_of(&mut worker, b"small").unwrap();
    for _ in 0..100 {
        assert!(!worker.add(b"small", &large).unwrap());
        assert!(!worker.replace(b"none", &large).unwrap());
        assert_eq!(worker.compare_and_set(b"small", &large, version + 1), Ok(Swap::Exists));
        assert_eq!(worker.compare_and_set(b"none", &large, version), Ok(Swap::Missing));
    }
    assert_eq!(tender.stats().unwrap(), before);
}

#[test]
fn threads_count_one_number_up() {
    let cache = cache(THREADS);
    let mut workers = workers(&cache);
    workers[0].set(b"sum", &0u64.to_le_bytes()).unwrap();
    std::thread::scope(|scope| {
        for worker in &mut workers {
            scope.spawn(move || (0..ROUNDS).for_each(|_| count_up(worker)));
        }
    });
    let (sum, _) = value_of(&mut workers[0], b"sum").unwrap();
    assert_eq!(sum, (THREADS * ROUNDS).to_le_bytes());
}

fn count_up(worker: &mut Worker) {
    loop {
        let (old, version) = value_of(worker, b"sum").unwrap();
        let sum = u64::from_le_bytes(old.try_into().unwrap()) + 1;
        match worker.compare_and_set(b"sum", &sum.to_le_bytes(), version).unwrap() {
            Swap::Stored => return,
            Swap::Exists => {}
            Swap::Missing => panic!("the sum is gone"),
        }
    }
}

#[test]
fn one_thread_alone_adds_a_key() {
    let cache = cache(THREADS);
    let mut workers = workers(&cache);
    let barrier = Barrier::new(THREADS as usize);
    let keys: Vec<[u8; 4]> = (0..1_000u32).map(u32::to_le_bytes).collect();
    let added: Vec<Vec<bool>> = std::thread::scope(|scope| {
        let (keys, barrier) = (&keys, &barrier);
        let spawn = |(worker, thread)| scope.spawn(move || add_all(worker, thread, keys, barrier));
        let threads: Vec<_> = workers.iter_mut().zip(0..).map(spawn).collect();
        threads.into_iter().map(|thread| thread.join().unwrap()).collect()
    });
    for (place, key) in keys.iter().enumerate() {
        let winners: Vec<u8> = (0..).zip(&added).filter(|(_, added)| added[place]).map(|(thread, _)| thread).collect();
        assert_eq!(winners.len(), 1);
        assert_eq!(value_of(&mut workers[0], key).unwrap().0, winners);
    }
}

/// Adds each key at the same moment as the other threads, and returns which were stored.
fn add_all(worker: &mut Worker, thread: u8, keys: &[[u8; 4]], barrier: &Barrier) -> Vec<bool> {
    let mut added = Vec::new();
    for key in keys {
        barrier.wait();
        added.push(worker.add(key, &[thread]).unwrap());
    }
    added
}

#[test]
fn deletes_the_value_of_one_version_alone() {
    let mut worker = cache(1).worker().unwrap();
    let mut value = Vec::new();
    assert_eq!(worker.compare_and_delete(b"a", 1), Ok(Deletion::Missing));
    worker.set(b"a", b"old").unwrap();
    let version = worker.get_with_version(b"a", &mut value).unwrap().unwrap();
    worker.set(b"a", b"new").unwrap();
    assert_eq!(worker.compare_and_delete(b"a", version), Ok(Deletion::Exists));
    let version = worker.get_with_version(b"a", &mut value).unwrap().unwrap();
    assert_eq!(worker.compare_and_delete(b"a", version), Ok(Deletion::Deleted));
    assert_eq!(worker.compare_and_delete(b"a", version), Ok(Deletion::Missing));
    assert_eq!(value, b"oldnew");
    assert_eq!(worker.compare_and_delete(b"", version), Err(Error::BadKey));
}
