//! The text of replies.

/// The digits of a number.
pub fn number(reply: &mut Vec<u8>, mut value: u64) {
    let mut digits = [0; 20];
    let mut place = digits.len();
    loop {
        place -= 1;
        digits[place] = b'0' + (value % 10) as u8;
        value /= 10;
        if value == 0 {
            break;
        }
    }
    reply.extend_from_slice(&digits[place..]);
}

/// A line of a word and numbers.
pub fn line(reply: &mut Vec<u8>, word: &str, numbers: &[u64]) {
    reply.extend_from_slice(word.as_bytes());
    spaced(reply, numbers);
    reply.extend_from_slice(b"\r\n");
}

/// A line of a word, a key, a length and so many words of an item.
pub fn item(reply: &mut Vec<u8>, word: &str, key: u64, words: &[u64]) {
    reply.extend_from_slice(word.as_bytes());
    spaced(reply, &[key, words.len() as u64]);
    spaced(reply, words);
    reply.extend_from_slice(b"\r\n");
}

fn spaced(reply: &mut Vec<u8>, numbers: &[u64]) {
    for &value in numbers {
        reply.push(b' ');
        number(reply, value);
    }
}

/// A line of the statistics.
pub fn stat(reply: &mut Vec<u8>, name: &str, value: u64) {
    reply.extend_from_slice(b"STAT ");
    line(reply, name, &[value]);
}

/// A line of a class's statistics.
pub fn class_stat(reply: &mut Vec<u8>, class: usize, name: &str, value: u64) {
    reply.extend_from_slice(b"STAT ");
    number(reply, class as u64);
    reply.push(b':');
    line(reply, name, &[value]);
}
