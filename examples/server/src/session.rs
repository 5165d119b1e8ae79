//! One connection: reads commands, and writes their replies in order.
use crate::counts::Counter;
use crate::item::{deadline, Head, HEAD};
use crate::shared::{lock, Shared, PAGE};
use crate::store::Store;
use crate::words::{announces_data, is_quiet, key, signed, unsigned, Reply, ERROR, EXPIRY, FORMAT};
use std::borrow::Cow;
use std::io::{self, Read, Write};

/// How many bytes a read asks for, and the longest line that is waited for.
const READ: usize = 65_536;
/// From how many bytes of replies on they are written before the next one is made. The room for them is twice as large at most.
const MOST_OUTPUT: usize = 1 << 19;
const LONGEST_DATA: usize = i32::MAX as usize - 3;

/// What to reply to a command. It is none where a reply can't be given before others are written, or before more data have come.
type Answer = Reply<Option<Cow<'static, str>>>;

/// Serves the connection until its client closes it or quits. The number is that of the connection.
pub fn serve(mut stream: impl Read + Write, shared: &Shared, number: usize) -> io::Result<()> {
    shared.counts[number % shared.counts.len()].add(Counter::total_connections);
    let mut session = Session::default();
    // How many bytes in the room have come, and how many of them are answered: more, while the data of a refused store are passed over.
    let (mut room, mut come, mut answered) = (vec![0; READ], 0, 0);
    while !session.quits {
        room.resize(room.len().max(2 * come), 0);
        let count @ 1.. = stream.read(&mut room[come..])? else { break };
        come += count;
        let (input, mut words) = (&room[..come], Vec::new());
        let mut is_full = true;
        while is_full {
            let mut store = Store::new(shared, number);
            while let Some(length) = input.get(answered..).filter(|_| !session.is_full()).and_then(|input| session.step(&mut store, input, &mut words)) {
                answered += length;
            }
            drop(store); // No worker is kept while replies are written.
            is_full = session.is_full();
            stream.write_all(&session.output)?;
            session.output.clear();
        }
        room.copy_within(answered.min(come)..come, 0);
        (come, answered) = (come.saturating_sub(answered), answered.saturating_sub(come));
    }
    Ok(())
}

#[derive(Default)]
struct Session {
    output: Vec<u8>,
    // How many bytes the command has.
    length: usize,
    // How many keys of a long get have their replies, while those are written.
    keys: usize,
    // Whether the command's reply isn't written.
    quiet: bool,
    quits: bool,
}

impl Session {
    fn is_full(&self) -> bool {
        self.output.len() >= MOST_OUTPUT
    }

    // Answers the first command, and returns its length; None where more has to come, or replies have to be written first.
    fn step<'a>(&mut self, store: &mut Store, input: &'a [u8], words: &mut Vec<&'a [u8]>) -> Option<usize> {
        let Some(end) = input.iter().position(|byte| *byte == b'\n') else {
            self.quits = input.len() > READ;
            return None;
        };
        let (line, behind) = (&input[..end], &input[end + 1..]);
        words.clear();
        words.extend(line.strip_suffix(b"\r").unwrap_or(line).split(|byte| *byte == b' ').filter(|word| !word.is_empty()));
        self.length = end + 1;
        self.quiet = is_quiet(words);
        self.quits = words.first() == Some(&b"quit".as_slice());
        let answer = if announces_data(words) { self.store(store, words, behind) } else { self.command(store, words) };
        let reply = answer.unwrap_or_else(|error| Some(error.into()))?;
        self.line(&reply);
        Some(self.length)
    }

    // Stores the data behind the line.
    fn store(&mut self, store: &mut Store, words: &[&[u8]], behind: &[u8]) -> Answer {
        let key = key(words[1])?;
        let head = Head {
            flags: unsigned(words[2], FORMAT)? as u32,
            deadline: deadline(signed(words[3], FORMAT)?, store.now),
            unique: if words[0] == b"cas" { unsigned(words[5], FORMAT)? } else { 0 },
        };
        let length = usize::try_from(signed(words[4], FORMAT)?).ok().filter(|length| *length <= LONGEST_DATA).ok_or(FORMAT)?;
        self.length += length + 2;
        if HEAD + length > PAGE {
            return Err(store.refuse(words[0], key));
        }
        let Some(data) = behind.get(..length + 2) else { return Ok(None) };
        let data = data.strip_suffix(b"\r\n").ok_or("CLIENT_ERROR bad data chunk")?;
        Ok(Some(store.store(words[0], key, head, data)?.into()))
    }

    // Does a command that no data follow.
    fn command(&mut self, store: &mut Store, words: &[&[u8]]) -> Answer {
        let pages = || lock(&store.shared.pages);
        Ok(Some(match words {
            [b"get" | b"gets", keys @ ..] if !keys.is_empty() => return self.get(store, words[0], keys, None),
            [b"gat" | b"gats", expiry, keys @ ..] => return self.get(store, words[0], keys, Some(signed(expiry, EXPIRY)?)),
            [b"delete", word] | [b"delete", word, b"0" | b"noreply"] | [b"delete", word, b"0", b"noreply"] => store.delete(key(word)?)?.into(),
            [b"delete", _, _] | [b"delete", _, _, _] => "CLIENT_ERROR bad command line format.  Usage: delete <key> [noreply]".into(),
            [b"incr" | b"decr", word, by] | [b"incr" | b"decr", word, by, _] => {
                let (key, by) = (key(word)?, unsigned(by, "CLIENT_ERROR invalid numeric delta argument")?);
                store.count(words[0], key, by)?.to_string().into()
            }
            [b"touch", word, expiry] | [b"touch", word, expiry, _] => store.touch(key(word)?, signed(expiry, EXPIRY)?)?.into(),
            [b"flush_all"] | [b"flush_all", b"noreply"] => store.flush(0).into(),
            [b"flush_all", expiry] | [b"flush_all", expiry, _] => store.flush(signed(expiry, EXPIRY)?).into(),
            [b"slabs", b"automove", mode, ..] if *mode != b"ratio" => pages().set_mode(unsigned(mode, FORMAT)? as u32)?.into(),
            [b"slabs", b"reassign", src, dst] => pages().reassign(signed(src, FORMAT)?, signed(dst, FORMAT)?)?.into(),
            [b"stats", b"slabs", ..] => pages().lines()?.into(),
            [b"stats"] => store.shared.lines().into(),
            [b"verbosity", level] | [b"verbosity", level, _] => unsigned(level, FORMAT).map(|_| "OK")?.into(),
            [b"version", ..] => concat!("VERSION ", env!("CARGO_PKG_VERSION")).into(),
            [b"quit", ..] => return Ok(None),
            _ => {
                self.quiet = false;
                ERROR.into()
            }
        }))
    }

    // Writes what the keys have. Where there are many replies it stops, and goes on behind them when it is called again.
    fn get(&mut self, store: &mut Store, name: &[u8], keys: &[&[u8]], expiry: Option<i32>) -> Answer {
        keys.iter().try_for_each(|word| key(word).map(drop))?;
        for (place, key) in keys.iter().enumerate().skip(std::mem::take(&mut self.keys)) {
            if self.is_full() {
                self.keys = place;
                return Ok(None);
            }
            if let Some((head, data)) = store.get(key, expiry).map_err(|_| "SERVER_ERROR out of memory writing get response")? {
                let unique = if name.ends_with(b"s") { format!(" {}", head.unique) } else { String::new() };
                self.output.extend_from_slice(b"VALUE ");
                self.output.extend_from_slice(key);
                self.line(&format!(" {} {}{unique}", head.flags, data.len()));
                self.output.extend_from_slice(data);
                self.line("");
            }
        }
        Ok(Some("END".into()))
    }

    // Writes a line, if the command wants a reply.
    fn line(&mut self, text: &str) {
        if !self.quiet {
            self.output.extend_from_slice(text.as_bytes());
            self.output.extend_from_slice(b"\r\n");
        }
    }
}
