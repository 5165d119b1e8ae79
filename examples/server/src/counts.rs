//! What `stats` counts.
use std::sync::atomic::{AtomicU64, Ordering};

macro_rules! counters {
    ($($name:ident)*) => {
        /// A counter, by its name in `stats`.
        #[allow(non_camel_case_types)]
        #[derive(Clone, Copy)]
        pub enum Counter { $($name),* }
        const NAMES: &[&str] = &[$(stringify!($name)),*];
    };
}

counters! {
    total_connections cmd_get cmd_set cmd_flush cmd_touch get_hits get_misses delete_misses delete_hits incr_misses incr_hits decr_misses
    decr_hits cas_misses cas_hits cas_badval touch_hits touch_misses store_too_large
}

/// The counters of one worker.
#[derive(Default)]
#[repr(align(128))] // so that no two workers share a line of the processor's cache
pub struct Counts([AtomicU64; NAMES.len()]);

impl Counts {
    pub fn add(&self, counter: Counter) {
        self.0[counter as usize].fetch_add(1, Ordering::Relaxed);
    }
}

/// A line for each counter, with its sum over all workers.
pub fn lines(all: &[Counts]) -> String {
    let sum = |place: usize| all.iter().map(|counts| counts.0[place].load(Ordering::Relaxed)).sum::<u64>();
    NAMES.iter().enumerate().map(|(place, name)| format!("STAT {name} {}\r\n", sum(place))).collect()
}
