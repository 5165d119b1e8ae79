//! The calls of a worker, by one thread and by several.
use noddrefil::{Cache, Config, Error};

fn cache(workers: u64) -> Cache {
    Cache::open(&Config::for_bytes(1 << 20, 100, workers).unwrap().with_hash_key(3, 4)).unwrap()
}

#[test]
fn stores_reads_and_deletes() {
    let mut worker = cache(1).worker().unwrap();
    let mut value = b"old ".to_vec();
    assert!(!worker.get(b"a", &mut value).unwrap());
    worker.set(b"a", b"new").unwrap();
    assert!(worker.get(b"a", &mut value).unwrap());
    assert_eq!(value, b"old new");
    assert!(worker.touch(b"a").unwrap());
    assert!(worker.delete(b"a").unwrap());
    assert!(!worker.delete(b"a").unwrap());
    assert!(!worker.touch(b"a").unwrap());
}

#[test]
fn reads_a_value_that_is_longer_than_the_first_room() {
    let mut worker = cache(1).worker().unwrap();
    let long = vec![7; 10_000];
    let mut value = Vec::new();
    worker.set(b"long", &long).unwrap();
    assert!(worker.get(b"long", &mut value).unwrap());
    assert_eq!(value, long);
}

#[test]
fn refuses_keys_values_and_workers() {
    let cache = cache(1);
    let mut worker = cache.worker().unwrap();
    let mut value = b"kept".to_vec();
    assert_eq!(worker.set(b"", b"1"), Err(Error::BadKey));
    assert_eq!(worker.get(&[1; 251], &mut value), Err(Error::BadKey));
    assert_eq!(value, b"kept");
    assert_eq!(worker.set(b"a", &[0; 20_000]), Err(Error::TooLarge));
    assert!(matches!(cache.worker(), Err(Error::NoWorkers)));
    assert_eq!(Config::for_bytes(1 << 20, 100, 63).unwrap_err(), Error::Config(17));
    assert_eq!(Config::for_bytes(1, 100, 1).unwrap_err(), Error::Config(26));
}

#[test]
fn stores_a_value_of_the_most_bytes() {
    let mut worker = cache(1).worker().unwrap();
    let most = worker.max_value(1).unwrap().unwrap();
    worker.set(b"a", &vec![7; most]).unwrap();
    assert_eq!(worker.set(b"a", &vec![7; most + 1]), Err(Error::TooLarge));
    assert_eq!(worker.max_value(20_000).unwrap(), None);
}

#[test]
fn a_refused_set_deletes_or_keeps_the_old_value() {
    let mut worker = cache(1).worker().unwrap();
    let mut value = Vec::new();
    worker.set_or_keep(b"a", b"1").unwrap();
    assert_eq!(worker.set_or_keep(b"a", &[0; 20_000]), Err(Error::TooLarge));
    assert!(worker.get(b"a", &mut value).unwrap());
    assert_eq!(value, b"1");
    assert_eq!(worker.set(b"a", &[0; 20_000]), Err(Error::TooLarge));
    assert!(!worker.get(b"a", &mut value).unwrap());
}

#[test]
fn a_worker_outlives_its_cache() {
    let cache = cache(2);
    let (mut one, mut other) = (cache.worker().unwrap(), cache.worker().unwrap());
    drop(cache);
    one.set(b"a", b"1").unwrap();
    let mut value = Vec::new();
    assert!(other.get(b"a", &mut value).unwrap());
    assert_eq!(value, b"1");
}

#[test]
fn threads_read_what_was_stored_under_the_key() {
    let cache = cache(4);
    std::thread::scope(|scope| {
        for thread in 0..4u64 {
            let mut worker = cache.worker().unwrap();
            scope.spawn(move || {
                let mut value = Vec::new();
                for call in 0..20_000u64 {
                    let key = ((call * 7 + thread) % 100).to_le_bytes();
                    if call % 3 == 0 {
                        worker.set(&key, &key.repeat(1 + call as usize % 20)).unwrap();
                        continue;
                    }
                    value.clear();
                    if worker.get(&key, &mut value).unwrap() {
                        assert!(value.chunks(8).all(|part| part == key));
                    }
                }
            });
        }
    });
}

/// Each key is listed once, and none behind a clear.
#[test]
fn keys_are_listed() {
    let mut worker = cache(1).worker().unwrap();
    assert!(worker.keys().unwrap().is_empty());
    let mut stored: Vec<Vec<u8>> = (1..=250).map(|len| vec![len as u8; len]).collect();
    for key in &stored {
        worker.set(key, b"value").unwrap();
    }
    let mut keys = worker.keys().unwrap();
    keys.sort();
    stored.sort();
    assert_eq!(keys, stored);
    worker.clear().unwrap();
    assert!(worker.keys().unwrap().is_empty());
}

/// What is stored is counted, and gone behind a clear.
#[test]
fn values_are_counted_and_cleared() {
    let mut worker = cache(1).worker().unwrap();
    assert_eq!(worker.len().unwrap(), 0);
    for key in 0..50_u8 {
        worker.set(&[key], &[key; 9]).unwrap();
    }
    assert_eq!(worker.len().unwrap(), 50);
    assert_eq!(worker.clear().unwrap(), 50);
    let mut into = Vec::new();
    assert!((0..50).all(|key| !worker.get(&[key], &mut into).unwrap()));
    assert_eq!((worker.len().unwrap(), worker.clear().unwrap()), (0, 0));
}
