//! The words of a command's line, read as memcached reads them.

/// What a command gives, or the reply that says why it gives nothing.
pub type Reply<T> = Result<T, &'static str>;

pub const ERROR: &str = "ERROR";
pub const FORMAT: &str = "CLIENT_ERROR bad command line format";
pub const EXPIRY: &str = "CLIENT_ERROR invalid exptime argument";

const LONGEST_KEY: usize = 250;

/// Whether the command is one that data follow.
pub fn announces_data(words: &[&[u8]]) -> bool {
    match words {
        [b"set" | b"add" | b"replace" | b"append" | b"prepend", rest @ ..] => (4..=5).contains(&rest.len()),
        [b"cas", rest @ ..] => (5..=6).contains(&rest.len()),
        _ => false,
    }
}

/// Whether `noreply` ends a command that may have it. Then no error is written, either.
pub fn is_quiet(words: &[&[u8]]) -> bool {
    match words {
        [b"delete", b"noreply"] => false,
        [b"delete" | b"incr" | b"decr" | b"touch" | b"flush_all" | b"verbosity", .., b"noreply"] => true,
        [b"slabs", b"automove", .., b"noreply"] => true,
        [.., b"noreply"] => announces_data(words),
        _ => false,
    }
}

/// The word, if it isn't too long for a key.
pub fn key(word: &[u8]) -> Reply<&[u8]> {
    (word.len() <= LONGEST_KEY).then_some(word).ok_or(FORMAT)
}

/// A number with or without a sign, or the error. As at memcached, a greater one is cut to 32 bits.
pub fn signed(text: &[u8], error: &'static str) -> Reply<i32> {
    integer(text).and_then(|number| i64::try_from(number).ok()).map(|number| number as i32).ok_or(error)
}

/// A number of 64 bits, or the error. As at memcached, a negative one counts from 2^64 down, and with a number of 2^63 or more no `-` may stand
/// anywhere in the text.
pub fn unsigned(text: &[u8], error: &'static str) -> Reply<u64> {
    let number = integer(text).ok_or(error)?;
    let size = u64::try_from(number.unsigned_abs()).map_err(|_| error)?;
    let number = if number < 0 { size.wrapping_neg() } else { size };
    (number <= i64::MAX as u64 || !text.contains(&b'-')).then_some(number).ok_or(error)
}

// The number that the text begins with, up to white space.
fn integer(text: &[u8]) -> Option<i128> {
    let is_space = |byte: &u8| matches!(byte, b'\t'..=b'\r' | b' ');
    let begin = text.iter().position(|byte| !is_space(byte))?;
    let digits = text[begin..].split(is_space).next()?;
    std::str::from_utf8(digits).ok().and_then(|it| it.parse().map(i64::into).or_else(|_| it.parse()).ok())
}
