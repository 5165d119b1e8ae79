//! The calls of the C library, as `include/noddrefil.h` documents them.
use std::ffi::c_void;
use std::ptr;

#[repr(C)]
pub(crate) struct Handle {
    state: u64,
    at: *mut c_void,
}

// A handle may go to another thread: the library keeps nothing of the thread that used it.
unsafe impl Send for Handle {}

impl Handle {
    pub(crate) const CLOSED: Handle = Handle {
        state: 0,
        at: ptr::null_mut(),
    };
}

impl Drop for Handle {
    fn drop(&mut self) {
        // A closed handle is answered, and nothing is done.
        unsafe { mc_close(self) };
    }
}

#[repr(C)]
#[derive(Clone, Copy, Debug, Default)]
pub(crate) struct Config {
    pub(crate) page: u64,
    pub(crate) limit: u64,
    pub(crate) first: u64,
    pub(crate) num: u64,
    pub(crate) den: u64,
    pub(crate) max: u64,
    pub(crate) stripes: u64,
    pub(crate) bulk: u64,
    pub(crate) shards: u64,
    pub(crate) hash_first: u64,
    pub(crate) hash_second: u64,
}

/// What a window of all shards did.
#[repr(C)]
#[derive(Clone, Copy, Debug, Default, PartialEq, Eq)]
pub struct Tended {
    /// The moves that were under way: a store of mode 2 asked for them, or the window before left them so.
    pub found: u64,
    /// The moves of a page that began.
    pub began: u64,
    /// The moves of a page that ended.
    pub ended: u64,
    /// The items that a move took to another chunk of their class.
    pub rescued: u64,
    /// The items that a move evicted, as their class had no other chunk.
    pub evicted: u64,
    /// The shards whose window ended early, as workers had a lock at each try. The next window does it.
    pub held: u64,
}

/// What a class has on all shards together.
#[repr(C)]
#[derive(Clone, Copy, Debug, Default, PartialEq, Eq)]
pub struct ClassStats {
    /// The bytes of a chunk.
    pub size: u64,
    /// The chunks of a page.
    pub per_page: u64,
    /// The pages of the class, those that move counted in.
    pub pages: u64,
    /// The chunks of the free lists. A deleted item's is among them from the next window on.
    pub free_chunks: u64,
    /// The items that were ever evicted to make room.
    pub evictions: u64,
}

/// What all shards have together.
#[repr(C)]
#[derive(Clone, Copy, Debug, Default, PartialEq, Eq)]
pub struct Totals {
    /// The pages that were ever granted to a class.
    pub granted: u64,
    /// The pages in the pools.
    pub pool: u64,
    /// The shards of which a page moves.
    pub moving: u64,
    /// The moves that ended.
    pub ended: u64,
    /// The items that moves took to another chunk of their class.
    pub rescued: u64,
    /// The items that moves evicted.
    pub evicted: u64,
    /// How often a move met a chunk that somebody held.
    pub busy: u64,
}

extern "C" {
    pub(crate) fn mc_config_for_bytes(config: *mut Config, bytes: u64, usual_item: u64, workers: u64) -> u32;
    pub(crate) fn mc_bytes(config: *const Config, workers: u64, bytes: *mut u64) -> u32;
    pub(crate) fn mc_open(config: *const Config, workers: u64, first: *mut Handle, tender: *mut Handle) -> u32;
    pub(crate) fn mc_max_value(worker: *mut Handle, key_len: u64, most: *mut u64) -> u32;
    pub(crate) fn mc_join(first: *mut Handle, out: *mut Handle) -> u32;
    pub(crate) fn mc_get(worker: *mut Handle, key: *const u8, key_len: usize, tries: u64, out: *mut u8, room: usize, len: *mut u64) -> u32;
    pub(crate) fn mc_get_with_version(
        worker: *mut Handle,
        key: *const u8,
        key_len: usize,
        tries: u64,
        out: *mut u8,
        room: usize,
        len: *mut u64,
        version: *mut u64,
    ) -> u32;
    pub(crate) fn mc_set(worker: *mut Handle, key: *const u8, key_len: usize, value: *const u8, value_len: usize, tries: u64) -> u32;
    pub(crate) fn mc_set_or_keep(worker: *mut Handle, key: *const u8, key_len: usize, value: *const u8, value_len: usize, tries: u64) -> u32;
    pub(crate) fn mc_add(worker: *mut Handle, key: *const u8, key_len: usize, value: *const u8, value_len: usize, tries: u64) -> u32;
    pub(crate) fn mc_replace(worker: *mut Handle, key: *const u8, key_len: usize, value: *const u8, value_len: usize, tries: u64) -> u32;
    pub(crate) fn mc_compare_and_set(
        worker: *mut Handle,
        key: *const u8,
        key_len: usize,
        value: *const u8,
        value_len: usize,
        version: u64,
        tries: u64,
    ) -> u32;
    pub(crate) fn mc_delete(worker: *mut Handle, key: *const u8, key_len: usize, tries: u64) -> u32;
    pub(crate) fn mc_compare_and_delete(worker: *mut Handle, key: *const u8, key_len: usize, version: u64, tries: u64) -> u32;
    pub(crate) fn mc_touch(worker: *mut Handle, key: *const u8, key_len: usize, tries: u64) -> u32;
    pub(crate) fn mc_clear(worker: *mut Handle, tries: u64, count: *mut u64) -> u32;
    pub(crate) fn mc_len(worker: *mut Handle, tries: u64, count: *mut u64) -> u32;
    pub(crate) fn mc_keys(worker: *mut Handle, shard: u64, stripe: u64, tries: u64, out: *mut u8, room: usize, len: *mut u64) -> u32;
    pub(crate) fn mc_tend(tender: *mut Handle, tries: u64, done: *mut Tended) -> u32;
    pub(crate) fn mc_stats(tender: *mut Handle, tries: u64, totals: *mut Totals, classes: *mut ClassStats, room: usize, count: *mut u64) -> u32;
    pub(crate) fn mc_automove(tender: *mut Handle, mode: u64, tries: u64) -> u32;
    pub(crate) fn mc_reassign(tender: *mut Handle, shard: u64, src: u64, dst: u64, tries: u64) -> u32;
    pub(crate) fn mc_close(handle: *mut Handle) -> u32;
}
