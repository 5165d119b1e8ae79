//! Moves of pages between classes: how they begin and end. What happens between is the mover's.

use crate::slabs::Slabs;

/// A page on its way from one class to another, or to the pool where `destination` is 0.
#[derive(Clone, Copy)]
pub struct Move {
    pub page: usize,
    pub source: usize,
    pub destination: usize,
    /// Chunks that this pass has looked at.
    pub position: usize,
    /// Chunks that held up this pass.
    pub busy: u64,
}

/// Why no move begins.
pub enum Refusal {
    Busy,
    Same,
    BadClass,
    NoSpare,
}

impl Slabs {
    /// The first page of the source begins to move. Without a source the pick finds one.
    pub fn begin_move(&mut self, source: Option<u64>, destination: u64) -> Result<(), Refusal> {
        if self.moving.is_some() {
            return Err(Refusal::Busy);
        }
        if source == Some(destination) {
            return Err(Refusal::Same);
        }
        let count = self.classes().len() as u64;
        let from = match source {
            Some(source) => source,
            None => self.pick(destination).ok_or(Refusal::BadClass)? as u64,
        };
        if from == 0 || from > count || destination > count {
            return Err(Refusal::BadClass);
        }
        let (from, destination) = (from as usize, destination as usize);
        if self.class(from).pages.len() < 2 {
            return Err(Refusal::NoSpare);
        }
        if source.is_none() {
            self.cursor = from;
        }
        let page = self.class(from).pages[0];
        self.moving = Some(Move {
            page,
            source: from,
            destination,
            position: 0,
            busy: 0,
        });
        Ok(())
    }

    /// The first class behind the cursor, the destination left out, with more than one page.
    fn pick(&self, destination: u64) -> Option<usize> {
        let count = self.classes().len();
        let tries = (0..count).map(|step| (self.cursor + step) % count + 1);
        let mut others = tries.filter(|&class| class as u64 != destination);
        others.find(|&class| self.class(class).pages.len() > 1)
    }

    /// The moving page, all of it cleared, comes to its destination.
    pub fn finish_move(&mut self, ending: Move) {
        self.class_mut(ending.source)
            .pages
            .retain(|&page| page != ending.page);
        if ending.destination == 0 {
            self.pool.push(ending.page);
        } else {
            self.cut(ending.page, ending.destination);
        }
        self.moving = None;
        self.totals.moved += 1;
    }
}
