//! The calls that are made, the same in all programs.
use super::calls::TENTHS;

/// What is called with a key.
#[derive(Clone, Copy, Debug, PartialEq, Eq)]
pub enum Call {
    Get,
    /// A get which makes the item that it finds the one that is evicted last.
    GetAndTouch,
    Set,
    /// A get that touches; and a set, where the key has no value.
    GetOrSet,
}

/// Numbers of keys, with two bits for the call behind each.
pub struct Trace(Vec<u32>);

/// What a number of the trace says.
pub fn call_of(number: u32) -> (u64, Call) {
    let call = match number & 3 {
        0 => Call::Get,
        1 => Call::GetAndTouch,
        2 => Call::Set,
        _ => Call::GetOrSet,
    };
    (u64::from(number >> 2), call)
}

/// The bytes of a key.
pub fn key_of(number: u64) -> [u8; 16] {
    u128::from(number).wrapping_mul(0x9e37_79b9_7f4a_7c15_f39c_c060_5ced_c835).to_le_bytes()
}

impl Trace {
    pub fn read(bytes: &[u8]) -> Trace {
        Trace(bytes.chunks_exact(4).map(|four| u32::from_le_bytes(four.try_into().expect("four bytes"))).collect())
    }

    /// The calls of one of so many threads: as many for each tenth.
    pub fn of_thread(&self, thread: u64, threads: u64) -> &[u32] {
        let share = self.0.len() / (TENTHS * threads as usize) * TENTHS;
        &self.0[thread as usize * share..][..share]
    }
}

#[cfg(test)]
mod tests {
    use super::{call_of, key_of, Call, Trace};

    #[test]
    fn says_key_and_call() {
        assert_eq!([20, 21, 22, 23].map(call_of), [Call::Get, Call::GetAndTouch, Call::Set, Call::GetOrSet].map(|call| (5, call)));
    }

    #[test]
    fn is_shared_out() {
        let bytes: Vec<u8> = (0..85_u32).flat_map(u32::to_le_bytes).collect();
        let trace = Trace::read(&bytes);
        assert_eq!(trace.of_thread(0, 2)[0], 0);
        assert_eq!(trace.of_thread(1, 2)[0], 40);
        assert_eq!(trace.of_thread(1, 2).len(), 40);
    }

    #[test]
    fn keys_are_apart() {
        assert_ne!(key_of(1), key_of(2));
    }
}
