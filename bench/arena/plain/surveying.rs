//! Numbers of all classes.
use crate::arena::Arena;
use crate::slabs::Slabs;

/// Of a class. Some are read by tests alone.
#[allow(dead_code)]
pub struct Numbers {
    pub pages: u64,
    pub free: u64,
    pub evicted: u64,
}

impl Arena {
    /// Each class's numbers, once its dead chunks were put back, if that is asked for.
    pub fn survey(&self, hand: u64, sweep: bool) -> Vec<Numbers> {
        let mut classes = Vec::with_capacity(self.sizes.len());
        let mut slabs = self.lock_slabs(hand);
        if sweep {
            (0..self.sizes.len()).for_each(|class| self.sweep(&mut slabs, class));
        }
        classes.extend((0..self.sizes.len()).map(|class| numbers_of(&slabs, class)));
        classes
    }
}

fn numbers_of(slabs: &Slabs, class: usize) -> Numbers {
    Numbers { pages: slabs.pages[class].len() as u64, free: slabs.free_count(class), evicted: slabs.evicted[class] }
}
