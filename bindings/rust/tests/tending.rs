//! The calls of the tender, alone and beside workers.
use noddrefil::{Cache, ClassStats, Config, Error, Stats, Tender, Worker};
use std::collections::HashSet;

const BYTES: u64 = 4 << 20;

fn config() -> Config {
    Config::for_bytes(BYTES, 100, 4).unwrap().with_hash_key(3, 4)
}

fn parts() -> (Cache, Tender, Worker) {
    let cache = Cache::open(&config()).unwrap();
    let (tender, worker) = (cache.tender().unwrap(), cache.worker().unwrap());
    (cache, tender, worker)
}

/// Stores as many values of so many bytes, each under a key of its own.
fn fill(worker: &mut Worker, name: &str, count: usize, bytes: usize) {
    for place in 0..count {
        worker.set(format!("{name}{place}").as_bytes(), &vec![place as u8; bytes]).unwrap();
    }
}

fn used(class: &ClassStats) -> u64 {
    class.pages * class.per_page - class.free_chunks
}

fn pages(stats: &Stats) -> u64 {
    stats.classes.iter().map(|class| class.pages).sum()
}

/// The class, counted from 1, whose chunks are the smallest that have so many bytes.
fn class_for(stats: &Stats, bytes: u64) -> usize {
    1 + stats.classes.iter().position(|class| class.size >= bytes).unwrap()
}

/// Windows, until no page moves. Their number is bounded, so that the test ends.
fn finish_moves(tender: &mut Tender) -> Stats {
    for _ in 0..1000 {
        tender.tend().unwrap();
        let stats = tender.stats().unwrap();
        if stats.totals.moving == 0 {
            return stats;
        }
    }
    panic!("a page moves still");
}

#[test]
fn a_cache_has_one_tender() {
    let cache = Cache::open(&config()).unwrap();
    let tender = cache.tender();
    assert!(tender.is_some());
    assert!(cache.tender().is_none());
    drop(tender);
    assert!(cache.tender().is_none());
}

#[test]
fn a_tender_outlives_its_cache() {
    let (cache, mut tender, worker) = parts();
    drop((cache, worker));
    tender.tend().unwrap();
    assert_eq!(pages(&tender.stats().unwrap()), 0);
}

#[test]
fn counts_what_was_stored() {
    let (_cache, mut tender, mut worker) = parts();
    let empty = tender.stats().unwrap();
    assert!(!empty.classes.is_empty());
    assert!(empty.classes.windows(2).all(|pair| pair[0].size < pair[1].size));
    assert_eq!((pages(&empty), empty.totals.granted), (0, 0));
    fill(&mut worker, "small", 100, 50);
    fill(&mut worker, "large", 7, 3000);
    let stats = tender.stats().unwrap();
    assert_eq!(stats.classes.iter().map(used).sum::<u64>(), 107);
    assert_eq!(used(&stats.classes[class_for(&stats, 3000) - 1]), 7);
    assert_eq!(pages(&stats) + stats.totals.pool, stats.totals.granted);
    worker.delete(b"large3").unwrap();
    tender.tend().unwrap();
    let stats = tender.stats().unwrap();
    assert_eq!(stats.classes.iter().map(used).sum::<u64>(), 106);
}

#[test]
fn a_page_goes_where_it_is_sent() {
    let (_cache, mut tender, mut worker) = parts();
    fill(&mut worker, "small", 10_000, 50);
    let before = tender.stats().unwrap();
    let (src, dst) = (class_for(&before, 50), class_for(&before, 3000));
    tender.reassign(0, Some(src as u64), dst as u64).unwrap();
    assert_eq!(tender.reassign(0, Some(src as u64), dst as u64), Err(Error::Busy));
    assert_eq!(tender.stats().unwrap().totals.moving, 1);
    let after = finish_moves(&mut tender);
    assert_eq!(after.totals.ended, before.totals.ended + 1);
    assert_eq!(after.classes[src - 1].pages, before.classes[src - 1].pages - 1);
    assert_eq!(after.classes[dst - 1].pages, before.classes[dst - 1].pages + 1);
    tender.reassign(0, None, 0).unwrap();
    let after = finish_moves(&mut tender);
    assert_eq!((after.totals.pool, after.totals.ended), (1, before.totals.ended + 2));
}

#[test]
fn refuses_moves_and_modes() {
    let (_cache, mut tender, mut worker) = parts();
    let shards = config().shards();
    let classes = tender.stats().unwrap().classes.len() as u64;
    worker.set(b"one", b"1").unwrap();
    assert!(shards >= 1);
    assert_eq!(tender.reassign(shards, Some(1), 2), Err(Error::OutOfRange));
    assert_eq!(tender.reassign(0, Some(1), 1), Err(Error::SameClass));
    assert_eq!(tender.reassign(0, Some(classes + 1), 1), Err(Error::BadClass));
    assert_eq!(tender.reassign(0, Some(1), classes + 1), Err(Error::BadClass));
    assert_eq!(tender.reassign(0, Some(0), 1), Err(Error::BadClass));
    assert_eq!(tender.reassign(0, None, 1), Err(Error::BadClass));
    assert_eq!(tender.reassign(0, Some(2), 1), Err(Error::NoSpare));
    for mode in [1, 2, 0] {
        tender.set_automove(mode).unwrap();
    }
    assert_eq!(tender.set_automove(3), Err(Error::OutOfRange));
}

#[test]
fn each_error_has_a_text_of_its_own() {
    let all = [Error::Busy, Error::BadClass, Error::NoSpare, Error::SameClass, Error::OutOfRange, Error::BadKey, Error::NoMemory];
    let texts: HashSet<String> = all.iter().map(Error::to_string).collect();
    assert_eq!(texts.len(), all.len());
}

#[test]
fn pages_follow_the_sizes_that_are_asked_for() {
    let (_cache, mut tender, mut worker) = parts();
    fill(&mut worker, "small", 60_000, 50);
    let before = tender.stats().unwrap();
    let class = class_for(&before, 3000) - 1;
    // A class gets a page where it alone evicted in the last three windows, and another class evicted nothing.
    for _ in 0..12 {
        fill(&mut worker, "large", 2000, 3000);
        tender.tend().unwrap();
    }
    let after = finish_moves(&mut tender);
    assert!(after.totals.ended > 0);
    assert!(after.classes[class].pages > before.classes[class].pages);
    assert!(after.classes[class].evictions > 0);
}

#[test]
fn pages_move_while_threads_store_and_read() {
    let (cache, mut tender, worker) = parts();
    let mut workers = [worker, cache.worker().unwrap(), cache.worker().unwrap()];
    tender.set_automove(2).unwrap();
    std::thread::scope(|scope| {
        let threads: Vec<_> = workers.iter_mut().enumerate().map(|(thread, worker)| scope.spawn(move || store_and_read(worker, thread))).collect();
        for turn in 0.. {
            tender.tend().unwrap();
            match tender.reassign(turn % config().shards(), None, 1 + turn % 3) {
                Ok(()) | Err(Error::Busy | Error::BadClass | Error::NoSpare | Error::SameClass) => {}
                Err(error) => panic!("{error}"),
            }
            if threads.iter().all(|thread| thread.is_finished()) {
                break;
            }
        }
    });
    assert!(finish_moves(&mut tender).totals.ended > 0);
}

/// Values of one size and then of another, each of them its key over and over.
fn store_and_read(worker: &mut Worker, thread: usize) {
    let mut value = Vec::new();
    for call in 0..20_000usize {
        let key = ((call * 7 + thread) % 3000).to_le_bytes();
        if call % 3 == 0 {
            worker.set(&key, &key.repeat(if call < 10_000 { 6 } else { 300 })).unwrap();
            continue;
        }
        value.clear();
        if worker.get(&key, &mut value).unwrap() {
            assert!(value.chunks(8).all(|part| part == key));
        }
    }
}
