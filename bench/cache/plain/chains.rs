//! Where the items of each hash are: chains through the items themselves, so that a key that goes leaves nothing behind.

const NONE: u32 = u32::MAX;
const FEWEST: usize = 64;

/// What stands in a chain.
pub trait Chained {
    fn hash(&self) -> u32;

    /// The item behind it in its chain.
    fn next(&mut self) -> &mut u32;
}

/// The first item of each chain. There are as many chains as items, and up to twice as many.
pub struct Chains {
    heads: Vec<u32>,
    count: usize,
}

impl Chains {
    pub fn new() -> Chains {
        Chains { heads: vec![NONE; FEWEST], count: 0 }
    }

    /// What the chains take, the items left out.
    pub fn bytes(&self) -> usize {
        self.heads.len() * size_of::<u32>()
    }

    #[cfg(test)]
    pub fn count(&self) -> usize {
        self.count
    }

    fn chain(&self, hash: u32) -> usize {
        hash as usize & (self.heads.len() - 1)
    }

    /// The item of this hash that it is.
    pub fn find<N: Chained>(&self, items: &mut [N], hash: u32, is_it: impl Fn(&N) -> bool) -> Option<u32> {
        let mut place = self.heads[self.chain(hash)];
        while place != NONE {
            let item = &mut items[place as usize];
            if item.hash() == hash && is_it(item) {
                return Some(place);
            }
            place = *item.next();
        }
        None
    }

    pub fn put<N: Chained>(&mut self, items: &mut [N], place: u32) {
        if self.count == self.heads.len() {
            self.grow(items);
        }
        self.count += 1;
        self.link(items, place);
    }

    fn link<N: Chained>(&mut self, items: &mut [N], place: u32) {
        let chain = self.chain(items[place as usize].hash());
        *items[place as usize].next() = self.heads[chain];
        self.heads[chain] = place;
    }

    /// Twice as many chains.
    fn grow<N: Chained>(&mut self, items: &mut [N]) {
        let more = vec![NONE; 2 * self.heads.len()];
        for head in std::mem::replace(&mut self.heads, more) {
            let mut place = head;
            while place != NONE {
                let next = *items[place as usize].next();
                self.link(items, place);
                place = next;
            }
        }
    }

    /// The item, which stands in a chain, goes out of it.
    pub fn take_out<N: Chained>(&mut self, items: &mut [N], place: u32) {
        self.count -= 1;
        let next = *items[place as usize].next();
        let chain = self.chain(items[place as usize].hash());
        if self.heads[chain] == place {
            self.heads[chain] = next;
            return;
        }
        let mut before = self.heads[chain];
        while *items[before as usize].next() != place {
            before = *items[before as usize].next();
        }
        *items[before as usize].next() = next;
    }
}

#[cfg(test)]
mod tests {
    use super::{Chained, Chains};

    struct Item(u32, u32);

    impl Chained for Item {
        fn hash(&self) -> u32 {
            self.0
        }

        fn next(&mut self) -> &mut u32 {
            &mut self.1
        }
    }

    #[test]
    fn finds_what_was_put_and_not_taken_out() {
        let mut chains = Chains::new();
        let mut items: Vec<Item> = (0..1_000).map(|place| Item(place / 3 * 64, 0)).collect();
        (0..1_000).for_each(|place| chains.put(&mut items, place));
        (0..1_000).filter(|place| place % 7 == 0).for_each(|place| chains.take_out(&mut items, place));
        for place in 0..1_000 {
            let own = &items[place as usize] as *const Item;
            let found = chains.find(&mut items, place / 3 * 64, |item| std::ptr::eq(item, own));
            assert_eq!(found.is_some(), place % 7 != 0);
        }
        assert_eq!((chains.bytes(), chains.count()), (4_096, 857));
    }
}
