//! So many gets and releases over a full memory: for instructions, and for what they cost in memory.
use super::{get_and_release, open_one, set_keys, show, time, Memory, PAGE, PER_PAGE};

const PAGES: u64 = 64;
const ROOM: u64 = PAGES * PER_PAGE;

pub fn run<M: Memory>(operations: u64) {
    let (memory, mut hand) = open_one::<M>(PAGE, PAGES);
    set_keys(&memory, &mut hand, 0, ROOM);
    let took = time(|| {
        for turn in 0..operations {
            assert!(get_and_release(&memory, &mut hand, turn % ROOM));
        }
    });
    show("get+release-alone", ROOM, took, operations);
}
