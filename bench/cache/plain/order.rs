//! A list in the order of use, linked by places. Each step takes constant time.

const NONE: u32 = u32::MAX;

/// The neighbours of a node: which was used next after it, and which last before it.
#[derive(Clone, Copy)]
pub struct Links {
    after: u32,
    before: u32,
}

impl Links {
    pub const NONE: Links = Links { after: NONE, before: NONE };
}

/// What stands in such a list.
pub trait Linked {
    fn links(&mut self) -> &mut Links;
}

/// The ends of a list, whose nodes somebody else has.
pub struct Order {
    newest: u32,
    oldest: u32,
}

impl Order {
    pub fn new() -> Order {
        Order { newest: NONE, oldest: NONE }
    }

    pub fn oldest(&self) -> Option<u32> {
        (self.oldest != NONE).then_some(self.oldest)
    }

    /// The node comes in as the newest.
    pub fn push<N: Linked>(&mut self, nodes: &mut [N], place: u32) {
        *nodes[place as usize].links() = Links { after: NONE, before: self.newest };
        match self.newest {
            NONE => self.oldest = place,
            newest => nodes[newest as usize].links().after = place,
        }
        self.newest = place;
    }

    pub fn take_out<N: Linked>(&mut self, nodes: &mut [N], place: u32) {
        let Links { after, before } = *nodes[place as usize].links();
        match after {
            NONE => self.newest = before,
            _ => nodes[after as usize].links().before = before,
        }
        match before {
            NONE => self.oldest = after,
            _ => nodes[before as usize].links().after = after,
        }
    }

    /// The node is the newest from now on.
    pub fn bump<N: Linked>(&mut self, nodes: &mut [N], place: u32) {
        if self.newest != place {
            self.take_out(nodes, place);
            self.push(nodes, place);
        }
    }

    /// Takes the newest out.
    pub fn pop<N: Linked>(&mut self, nodes: &mut [N]) -> Option<u32> {
        let place = self.newest;
        if place == NONE {
            return None;
        }
        self.take_out(nodes, place);
        Some(place)
    }
}

#[cfg(test)]
mod tests {
    use super::{Linked, Links, Order};

    impl Linked for Links {
        fn links(&mut self) -> &mut Links {
            self
        }
    }

    /// The places from the oldest on, each of which is taken out.
    fn drain(order: &mut Order, nodes: &mut [Links]) -> Vec<u32> {
        let mut places = Vec::new();
        while let Some(place) = order.oldest() {
            order.take_out(nodes, place);
            places.push(place);
        }
        places
    }

    #[test]
    fn bumps_and_takes_out() {
        let mut nodes = [Links::NONE; 5];
        let mut order = Order::new();
        (0..5).for_each(|place| order.push(&mut nodes, place));
        order.bump(&mut nodes, 4);
        order.bump(&mut nodes, 0);
        order.bump(&mut nodes, 2);
        order.take_out(&mut nodes, 3);
        assert_eq!(order.pop(&mut nodes), Some(2));
        assert_eq!(drain(&mut order, &mut nodes), [1, 4, 0]);
        assert_eq!(order.pop(&mut nodes), None);
    }
}
