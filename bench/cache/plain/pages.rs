//! The bytes of a page, as slabs of bytes have them, and as the arena does: as words that threads share.
use std::sync::atomic::{AtomicU64, Ordering::SeqCst};

/// The bytes of a page's chunks, each as somebody wrote them last.
pub trait Page: Send {
    /// A key and a value begin at multiples of this.
    const STEP: usize;

    /// So many bytes stand before those of each chunk.
    const COUNT: usize;

    fn new(bytes: usize) -> Self;

    /// Whether these bytes stand there.
    fn has(&self, begin: usize, bytes: &[u8]) -> bool;

    /// Puts so many of the page's bytes behind those that are there.
    fn read(&self, begin: usize, count: usize, into: &mut Vec<u8>);

    fn write(&mut self, begin: usize, bytes: &[u8]);

    /// Counts one more who reads the chunk that begins there.
    fn hold(&self, _begin: usize) {}

    /// Counts one less.
    fn release(&self, _begin: usize) {}
}

impl Page for Box<[u8]> {
    const STEP: usize = 1;
    const COUNT: usize = 0;

    fn new(bytes: usize) -> Box<[u8]> {
        vec![0; bytes].into_boxed_slice()
    }

    fn has(&self, begin: usize, bytes: &[u8]) -> bool {
        self[begin..].starts_with(bytes)
    }

    fn read(&self, begin: usize, count: usize, into: &mut Vec<u8>) {
        into.extend_from_slice(&self[begin..][..count]);
    }

    fn write(&mut self, begin: usize, bytes: &[u8]) {
        self[begin..][..bytes.len()].copy_from_slice(bytes);
    }
}

const WORD: usize = size_of::<u64>();

/// Words, each of which is read and stored by a step that is in one order with all others, as the arena's are. The first word of a chunk
/// counts who reads it.
impl Page for Box<[AtomicU64]> {
    const STEP: usize = WORD;
    const COUNT: usize = WORD;

    fn new(bytes: usize) -> Box<[AtomicU64]> {
        (0..bytes.div_ceil(WORD)).map(|_| AtomicU64::new(0)).collect()
    }

    fn has(&self, begin: usize, bytes: &[u8]) -> bool {
        let words = self[begin / WORD..].iter();
        bytes.chunks(WORD).zip(words).all(|(bytes, word)| word.load(SeqCst).to_le_bytes().starts_with(bytes))
    }

    fn read(&self, begin: usize, count: usize, into: &mut Vec<u8>) {
        let (words, old) = (&self[begin / WORD..][..count.div_ceil(WORD)], into.len());
        into.resize(old + words.len() * WORD, 0);
        for (word, bytes) in words.iter().zip(into[old..].chunks_exact_mut(WORD)) {
            bytes.copy_from_slice(&word.load(SeqCst).to_le_bytes());
        }
        into.truncate(old + count);
    }

    fn write(&mut self, begin: usize, bytes: &[u8]) {
        let (whole, rest) = bytes.as_chunks::<WORD>();
        let words = &self[begin / WORD..];
        for (word, bytes) in words.iter().zip(whole) {
            word.store(u64::from_le_bytes(*bytes), SeqCst);
        }
        if !rest.is_empty() {
            let mut last = [0; WORD];
            last[..rest.len()].copy_from_slice(rest);
            words[whole.len()].store(u64::from_le_bytes(last), SeqCst);
        }
    }

    fn hold(&self, begin: usize) {
        self[begin / WORD - 1].fetch_add(1, SeqCst);
    }

    fn release(&self, begin: usize) {
        self[begin / WORD - 1].fetch_sub(1, SeqCst);
    }
}

#[cfg(test)]
mod tests {
    use super::{AtomicU64, Page};

    fn keeps_what_is_written<P: Page>() {
        let mut page = P::new(64);
        let mut found = vec![1];
        page.write(8, &[7; 16]);
        page.write(24, &[9; 3]);
        page.read(16, 11, &mut found);
        assert_eq!(found, [1, 7, 7, 7, 7, 7, 7, 7, 7, 9, 9, 9]);
        assert!(page.has(24, &[9; 3]) && page.has(24, &[9; 2]) && !page.has(8, &[7, 8]));
    }

    #[test]
    fn bytes_keep_what_is_written() {
        keeps_what_is_written::<Box<[u8]>>();
    }

    #[test]
    fn words_keep_what_is_written() {
        keeps_what_is_written::<Box<[AtomicU64]>>();
    }
}
