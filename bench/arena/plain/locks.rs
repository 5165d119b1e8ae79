//! Locks as the arena has them: a word for each, which says who has it, and a slot for the value behind it. Words stand 128 bytes apart, and
//! so do slots: processors fetch lines of 64 bytes in pairs.
use std::cell::UnsafeCell;
use std::hint::spin_loop;
use std::mem::ManuallyDrop;
use std::ops::{Deref, DerefMut};
use std::sync::atomic::{AtomicU64, Ordering::SeqCst};
use std::thread::yield_now;

#[repr(align(128))]
struct Apart<T>(T);

/// Empty as long as somebody has the lock.
type Slot<T> = UnsafeCell<Option<Box<T>>>;

pub struct Locks<T> {
    words: Vec<Apart<AtomicU64>>,
    slots: Vec<Apart<Slot<T>>>,
}

// SAFETY: a slot is reached by who has its lock alone.
unsafe impl<T: Send> Sync for Locks<T> {}

impl<T> Locks<T> {
    /// One for each of the values.
    pub fn new(values: impl Iterator<Item = T>) -> Locks<T> {
        let slots: Vec<_> = values.map(|value| Apart(UnsafeCell::new(Some(Box::new(value))))).collect();
        Locks { words: slots.iter().map(|_| Apart(AtomicU64::new(0))).collect(), slots }
    }

    /// Takes the lock of this number for a hand. None where somebody has it.
    #[inline(always)]
    pub fn try_lock(&self, hand: u64, number: usize) -> Option<Held<'_, T>> {
        let (word, slot) = (&self.words[number].0, &self.slots[number].0);
        word.compare_exchange(0, hand + 1, SeqCst, SeqCst).ok()?;
        // SAFETY: the lock was just taken.
        let value = unsafe { (*slot.get()).take() }?;
        Some(Held { word, slot, value: ManuallyDrop::new(value) })
    }

    /// The same with waiting.
    pub fn lock(&self, hand: u64, number: usize) -> Held<'_, T> {
        let mut backoff = Backoff { step: 0 };
        loop {
            if let Some(held) = self.try_lock(hand, number) {
                return held;
            }
            self.wait(&mut backoff, number);
        }
    }

    /// Waits until the word was read as free: an exchange takes the line from whoever has it, even in vain.
    #[cold]
    fn wait(&self, backoff: &mut Backoff, number: usize) {
        loop {
            backoff.snooze();
            if self.words[number].0.load(SeqCst) == 0 {
                return;
            }
        }
    }
}

/// A lock that is taken, and the value behind it. It is given back when this is dropped.
pub struct Held<'a, T> {
    word: &'a AtomicU64,
    slot: &'a Slot<T>,
    value: ManuallyDrop<Box<T>>,
}

impl<T> Deref for Held<'_, T> {
    type Target = T;

    fn deref(&self) -> &T {
        &self.value
    }
}

impl<T> DerefMut for Held<'_, T> {
    fn deref_mut(&mut self) -> &mut T {
        &mut self.value
    }
}

impl<T> Drop for Held<'_, T> {
    #[inline(always)]
    fn drop(&mut self) {
        // SAFETY: the value isn't used again, and who has this has the lock.
        unsafe {
            let value = ManuallyDrop::take(&mut self.value);
            *self.slot.get() = Some(value);
        }
        self.word.store(0, SeqCst);
    }
}

/// The last step that spins, for 2 to the power of the step, before threads are yielded to.
const LAST_SPIN: u32 = 6;

/// Waits that grow, as those of crossbeam's `Backoff`.
struct Backoff {
    step: u32,
}

impl Backoff {
    fn snooze(&mut self) {
        if self.step > LAST_SPIN {
            yield_now();
            return;
        }
        (0..1 << self.step).for_each(|_| spin_loop());
        self.step += 1;
    }
}
