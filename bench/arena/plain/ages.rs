//! An age for each chunk that was handed out, which rises along the order of its class. So of two chunks it says which is older.

/// By the places of rows.
pub struct Ages {
    ages: Vec<u64>,
    clock: u64,
}

impl Ages {
    pub fn new(chunks: u64) -> Ages {
        Ages { ages: vec![0; chunks as usize], clock: 0 }
    }

    pub fn age(&self, place: usize) -> u64 {
        self.ages[place]
    }

    /// Makes a chunk the youngest.
    pub fn renew(&mut self, place: usize) {
        self.ages[place] = self.clock;
        self.clock += 1;
    }

    /// Makes one chunk as old as another, before which it stands.
    pub fn inherit(&mut self, new: usize, old: usize) {
        self.ages[new] = self.ages[old];
    }
}
