//! The pages of the cache: windows of its tender, and the commands on pages.
use crate::shared::PAGE;
use crate::words::{Reply, ERROR};
use noddrefil::{Error, Tender};

const BAD_CLASS: &str = "BADCLASS invalid src or dst class id";
const NO_MEMORY: &str = "SERVER_ERROR out of memory";

pub struct Pages {
    tender: Tender,
    // Whether the mode is 0.
    off: bool,
    shards: u64,
    // The shard in which a move was tried last.
    shard: u64,
}

impl Pages {
    /// Pages that follow the sizes of items, as in mode 1.
    pub fn new(tender: Tender, shards: u64) -> Pages {
        Pages { tender, off: false, shards, shard: 0 }
    }

    /// Does a window, to be called once a second. In mode 0 there is one only while a page moves.
    pub fn tend(&mut self) {
        if !self.off || self.tender.stats().is_ok_and(|stats| stats.totals.moving > 0) {
            // What it has no memory for is left to the next one.
            let _done = self.tender.tend();
        }
    }

    /// Sets the mode: 0, 1 or 2.
    pub fn set_mode(&mut self, mode: u32) -> Reply<&'static str> {
        self.tender.set_automove(mode.into()).map_err(|_| ERROR)?;
        self.off = mode == 0;
        Ok("OK")
    }

    /// Begins to move a page from class `src`, or from any one if that is -1, in the first shard that can. Class 0 is the pool. A class takes
    /// pages of the pool by itself, so the pool never has one to spare. The tests come in memcached's order.
    pub fn reassign(&mut self, src: i32, dst: i32) -> Reply<&'static str> {
        let classes = self.tender.stats().map_err(|_| NO_MEMORY)?.classes.len() as i32;
        if src == dst {
            return Err("SAME src and dst class are identical");
        }
        if !(-1..=classes).contains(&src) || !(0..=classes).contains(&dst) {
            return Err(BAD_CLASS);
        }
        let mut refusal = if src == -1 { BAD_CLASS } else { "NOSPARE source class has no spare pages" };
        for _ in 0..self.shards {
            self.shard = (self.shard + 1) % self.shards;
            match self.tender.reassign(self.shard, u64::try_from(src).ok(), dst as u64) {
                Ok(()) => return Ok("OK"),
                Err(Error::NoMemory) => return Err(NO_MEMORY),
                Err(Error::Busy) => refusal = "BUSY currently processing reassign request",
                Err(_) => {}
            }
        }
        Err(refusal)
    }

    /// The lines of `stats slabs`: those of each class that has pages, and two of all.
    pub fn lines(&mut self) -> Reply<String> {
        let stats = self.tender.stats().map_err(|_| NO_MEMORY)?;
        let (mut lines, mut active) = (String::new(), 0);
        for (class, at) in stats.classes.iter().zip(1..).filter(|(class, _)| class.pages > 0) {
            active += 1;
            let (pages, chunks, free) = (class.pages, class.pages * class.per_page, class.free_chunks);
            lines += &format!("STAT {at}:chunk_size {}\r\nSTAT {at}:chunks_per_page {}\r\n", class.size, class.per_page);
            lines += &format!("STAT {at}:total_pages {pages}\r\nSTAT {at}:total_chunks {chunks}\r\n");
            lines += &format!("STAT {at}:used_chunks {}\r\nSTAT {at}:free_chunks {free}\r\n", chunks.saturating_sub(free));
        }
        let bytes = stats.totals.granted * PAGE as u64;
        Ok(format!("{lines}STAT active_slabs {active}\r\nSTAT total_malloced {bytes}\r\nEND"))
    }
}
