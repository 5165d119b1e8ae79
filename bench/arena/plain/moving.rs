//! The mover's turns: each looks at some chunks of the page that moves.
use crate::arena::{Arena, Hand};
use crate::driver::{Counts, Turn};
use crate::header::{is_unheld, tag, LINKED_TAG, OUT_TAG};
use crate::rows::ChunkId;
use crate::saving::Sweep;
use crate::slabs::{Found, Moving, Slabs};
use std::sync::atomic::Ordering::SeqCst;

/// How many chunks a turn looks at.
const BULK: u64 = 64;

/// Counts what was found of a chunk.
fn count(counts: &mut Counts, found: Found) {
    counts.cleared += u64::from(matches!(found, Found::Cleared | Found::Rescued | Found::Evicted));
    counts.rescued += u64::from(found == Found::Rescued);
    counts.evicted += u64::from(found == Found::Evicted);
    counts.busy += u64::from(found == Found::Busy);
    counts.locked += u64::from(found == Found::Locked);
}

impl Arena {
    /// The class's first page begins to move to another class, or to the pool.
    pub fn reassign(&self, hand: &Hand, class: usize, to: Option<usize>) -> bool {
        self.lock_slabs(hand.number).begin_move(class, to)
    }

    pub fn turn(&self, hand: &Hand) -> Turn {
        let mut slabs = self.lock_slabs(hand.number);
        if slabs.moving.is_none() {
            return Turn::Idle;
        }
        let counts = self.look_at_chunks(hand, &mut slabs);
        self.end_turn(&mut slabs, counts)
    }

    fn look_at_chunks(&self, hand: &Hand, slabs: &mut Slabs) -> Counts {
        let mut counts = Counts::default();
        let mut sweep = Sweep::Due;
        for _ in 0..BULK {
            let Some(Moving { page, class, at: index, .. }) = slabs.moving else {
                break;
            };
            if index >= self.per_page(class) {
                break;
            }
            let found = self.visit(hand, slabs, class, ChunkId { page, index }, &mut sweep);
            slabs.passed(found);
            count(&mut counts, found);
        }
        counts
    }

    fn visit(&self, hand: &Hand, slabs: &mut Slabs, class: usize, chunk: ChunkId, sweep: &mut Sweep) -> Found {
        let head = self.header(chunk).load(SeqCst);
        match tag(head) {
            LINKED_TAG => self.visit_linked(hand, slabs, class, chunk, is_unheld(head), sweep),
            OUT_TAG => Found::Already,
            _ if self.clear(slabs, chunk) => Found::Cleared,
            _ => Found::Busy,
        }
    }

    /// At the page's end the pass begins anew, if something held it up, and else the page comes to where it goes.
    fn end_turn(&self, slabs: &mut Slabs, counts: Counts) -> Turn {
        let Some(moving) = slabs.moving else {
            return Turn::Idle;
        };
        if moving.at < self.per_page(moving.class) {
            return Turn::Went(counts);
        }
        if moving.busy > 0 {
            slabs.wrap();
            return Turn::Went(counts);
        }
        slabs.finish_move(moving);
        self.tell_page(moving.page, moving.to.unwrap_or_default());
        if let Some(to) = moving.to {
            self.cut(slabs, moving.page, to);
        }
        Turn::Finished(counts)
    }
}
