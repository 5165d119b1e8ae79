//! A chunk's header: the references to it in the lowest bits, above them a tag, and above that how often it was handed out, its issue.

pub const TAG_UNIT: u64 = 65_536;
pub const ISSUE_UNIT: u64 = 262_144;
pub const MOST_ISSUE: u64 = 70_368_744_177_663;

/// Of a chunk that is in no list.
pub const OUT_TAG: u64 = 0;
pub const FREE_TAG: u64 = 1;
/// Of one to which a key leads.
pub const LINKED_TAG: u64 = 3;

/// Handed out, with no key and no reference.
pub const DEAD: u64 = 2 * TAG_UNIT;
/// With a key, whose reference is the only one.
pub const UNHELD: u64 = 3 * TAG_UNIT + 1;

/// What a pop adds to a free chunk's header.
pub const HANDED_OUT: u64 = ISSUE_UNIT + TAG_UNIT + 1;
/// What a key adds to its chunk's header.
pub const LINKED: u64 = TAG_UNIT + 1;

pub fn tag(head: u64) -> u64 {
    head / TAG_UNIT % 4
}

pub fn is_dead(head: u64) -> bool {
    head % ISSUE_UNIT == DEAD
}

pub fn is_unheld(head: u64) -> bool {
    head % ISSUE_UNIT == UNHELD
}
