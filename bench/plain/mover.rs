//! The mover's pass over a page.

use crate::cache::Cache;
use crate::chunk::{Chunk, State};
use crate::moves::Move;

#[derive(Clone, Copy, PartialEq, Eq)]
pub enum Ended {
    Idle,
    Went,
    Finished,
}

/// What turns did with the chunks that they looked at.
#[derive(Default)]
pub struct Counts {
    /// Those rescued and evicted among them.
    pub cleared: u64,
    pub rescued: u64,
    pub evicted: u64,
    pub busy: u64,
}

/// One turn: up to `bulk` chunks, not past the page's end.
pub fn turn(cache: &mut Cache, counts: &mut Counts) -> Ended {
    let Some(mut moving) = cache.slabs.moving else {
        return Ended::Idle;
    };
    let per_page = cache.slabs.class(moving.source).per_page;
    let stop = per_page.min(moving.position + cache.slabs.table.bulk);
    while moving.position < stop {
        let chunk = Chunk::new(moving.page, moving.position);
        if !pass(cache, chunk, counts) {
            moving.busy += 1;
        }
        moving.position += 1;
    }
    if moving.position == per_page && moving.busy == 0 {
        cache.slabs.finish_move(moving);
        return Ended::Finished;
    }
    if moving.position == per_page {
        cache.slabs.totals.busy += moving.busy;
        moving = Move {
            position: 0,
            busy: 0,
            ..moving
        };
    }
    cache.slabs.moving = Some(moving);
    Ended::Went
}

/// Clears a chunk of the moving page. False where somebody holds it.
fn pass(cache: &mut Cache, chunk: Chunk, counts: &mut Counts) -> bool {
    let header = *cache.slabs.header(chunk);
    if header.holds > 0 {
        counts.busy += 1;
        return false;
    }
    let class = cache.slabs.class_of(chunk);
    match header.state {
        State::Cleared => return true,
        State::Free | State::Unlinked => cache.slabs.clear(chunk),
        State::Linked => {
            cache.slabs.sweep(class);
            if cache.rescue_or_evict(chunk) {
                counts.rescued += 1;
                cache.slabs.totals.rescues += 1;
            } else {
                counts.evicted += 1;
                cache.slabs.totals.evictions += 1;
            }
        }
    }
    counts.cleared += 1;
    true
}
