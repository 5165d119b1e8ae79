//! The automover's decision, from windows of evictions and free chunks.

use crate::slabs::Class;

/// So many windows in a row make a decision by evictions.
const WINDOWS: u32 = 3;

/// What the windows so far say of a class.
#[derive(Clone, Copy, Default)]
struct Past {
    evictions: u64,
    /// The last so many windows had no eviction, and more than 2 pages.
    quiet: u32,
    /// It led the last so many windows.
    led: u32,
}

pub struct Decider {
    past: Vec<Past>,
}

impl Decider {
    pub fn new(classes: usize) -> Decider {
        Decider {
            past: vec![Past::default(); classes],
        }
    }

    /// Feeds a window. A decision is a source and a destination, 0 being the pool.
    pub fn feed(&mut self, classes: &[Class]) -> Option<(usize, usize)> {
        let leader = self.leader(classes);
        for (place, (past, class)) in self.past.iter_mut().zip(classes).enumerate() {
            let quiet = class.evictions == past.evictions && class.pages.len() > 2;
            past.quiet = if quiet { past.quiet + 1 } else { 0 };
            past.led = if leader == Some(place) {
                past.led + 1
            } else {
                0
            };
            past.evictions = class.evictions;
        }
        let source = self.past.iter().position(|past| past.quiet >= WINDOWS);
        let destination = self.past.iter().position(|past| past.led >= WINDOWS);
        match (source, destination) {
            (Some(source), Some(destination)) => Some((source + 1, destination + 1)),
            _ => spare(classes),
        }
    }

    /// The lowest class with the most evictions in this window, if there are any.
    fn leader(&self, classes: &[Class]) -> Option<usize> {
        let rises = self
            .past
            .iter()
            .zip(classes)
            .map(|(past, class)| class.evictions - past.evictions);
        let (place, most) = rises
            .enumerate()
            .reduce(|best, next| if next.1 > best.1 { next } else { best })?;
        (most > 0).then_some(place)
    }
}

/// The lowest class with more than two and a half pages' worth of free chunks gives a page to the pool.
fn spare(classes: &[Class]) -> Option<(usize, usize)> {
    let has_spare =
        |class: &Class| class.pages.len() >= 2 && 2 * class.free.len() > 5 * class.per_page;
    classes
        .iter()
        .position(has_spare)
        .map(|place| (place + 1, 0))
}
