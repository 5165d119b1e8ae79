//! An item as the cache keeps it: flags, deadline and unique number in front of the data.

/// How many bytes stand in front of the data.
pub const HEAD: usize = 16;

/// What an item has beside its data.
#[derive(Clone, Copy, Debug, PartialEq, Eq)]
pub struct Head {
    /// The client's number.
    pub flags: u32,
    /// The second, since 1970, from which on the item is gone; 0 where it stays.
    pub deadline: u32,
    /// The number by which a store differs from all others.
    pub unique: u64,
}

impl Head {
    /// The item of these data, in this room, of which the old bytes go.
    pub fn with(&self, data: &[u8], mut room: Vec<u8>) -> Vec<u8> {
        let head = u128::from(self.flags) | u128::from(self.deadline) << 32 | u128::from(self.unique) << 64;
        room.clear();
        room.extend_from_slice(&head.to_le_bytes());
        room.extend_from_slice(data);
        room
    }

    /// The head of an item that `with` made.
    pub fn read(item: &[u8]) -> Head {
        let head = u128::from_le_bytes(item[..HEAD].try_into().expect("a head"));
        Head { flags: head as u32, deadline: (head >> 32) as u32, unique: (head >> 64) as u64 }
    }
}

/// The deadline of an expiry time of the protocol: 0 is none, up to thirty days count from now, and more is a second since 1970. A negative
/// one has passed.
pub fn deadline(expiry: i32, now: u32) -> u32 {
    const MONTH: u32 = 60 * 60 * 24 * 30;
    match u32::try_from(expiry) {
        Ok(seconds @ 1..=MONTH) => now.saturating_add(seconds),
        Ok(second) => second,
        Err(_) => 1,
    }
}
