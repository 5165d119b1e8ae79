//! The script language: commands, a line each.

pub enum Command {
    Set {
        key: u64,
        count: usize,
        base: u64,
    },
    Get {
        worker: usize,
        key: u64,
    },
    Hold {
        worker: usize,
        key: u64,
    },
    Drop {
        worker: usize,
        key: u64,
    },
    Delete {
        key: u64,
    },
    Touch {
        key: u64,
    },
    Reassign {
        source: Option<u64>,
        destination: u64,
    },
    Automove {
        mode: u64,
    },
    Window,
    Turn {
        most: u64,
    },
    Stats,
    StatsSlabs,
}

/// Workers are 1 to this.
pub const MOST_WORKER: u64 = 63;
const MOST_WORDS: u64 = 4_096;
const MOST_TURNS: u64 = 1_000_000;

/// The most words of a line that is a command.
const MOST_PARTS: usize = 5;

/// The commands of a script, or the number of the lowest line that is neither skipped nor a command.
pub fn read(bytes: &[u8]) -> Result<Vec<Command>, usize> {
    let mut commands = Vec::with_capacity(bytes.iter().filter(|&&byte| byte == b'\n').count() + 1);
    for (place, line) in lines(bytes).enumerate() {
        let mut words = line
            .split(|&byte| byte == b' ')
            .filter(|word| !word.is_empty());
        let Some(first) = words.next().filter(|word| !word.starts_with(b"#")) else {
            continue;
        };
        let mut parts = [first; MOST_PARTS];
        let mut count = 1;
        for word in words {
            *parts.get_mut(count).ok_or(place + 1)? = word;
            count += 1;
        }
        commands.push(command(&parts[..count]).ok_or(place + 1)?);
    }
    Ok(commands)
}

/// Lines without their ends, LF or CR LF. The last one may have no end.
fn lines(bytes: &[u8]) -> impl Iterator<Item = &[u8]> {
    bytes
        .split_inclusive(|&byte| byte == b'\n')
        .map(|line| match line {
            [line @ .., b'\r', b'\n'] | [line @ .., b'\n'] => line,
            _ => line,
        })
}

fn command(words: &[&[u8]]) -> Option<Command> {
    Some(match *words {
        [worker, b"set", key, count, base] => {
            in_range(worker, 1, MOST_WORKER)?;
            let count = in_range(count, 0, MOST_WORDS)? as usize;
            Command::Set {
                key: number(key)?,
                count,
                base: number(base)?,
            }
        }
        [b"reassign", source, destination] => {
            let source = if source == b"-1" {
                None
            } else {
                Some(number(source)?)
            };
            Command::Reassign {
                source,
                destination: number(destination)?,
            }
        }
        [worker, verb, key] => of_worker(worker, verb, key)?,
        [b"automove", mode] => Command::Automove {
            mode: in_range(mode, 0, 2)?,
        },
        [b"window"] => Command::Window,
        [b"turn", most] => Command::Turn {
            most: in_range(most, 1, MOST_TURNS)?,
        },
        [b"stats"] => Command::Stats,
        [b"stats", b"slabs"] => Command::StatsSlabs,
        _ => return None,
    })
}

fn of_worker(worker: &[u8], verb: &[u8], key: &[u8]) -> Option<Command> {
    let worker = in_range(worker, 1, MOST_WORKER)? as usize;
    let key = number(key)?;
    Some(match verb {
        b"get" => Command::Get { worker, key },
        b"hold" => Command::Hold { worker, key },
        b"drop" => Command::Drop { worker, key },
        b"del" => Command::Delete { key },
        b"touch" => Command::Touch { key },
        _ => return None,
    })
}

fn in_range(word: &[u8], least: u64, most: u64) -> Option<u64> {
    number(word).filter(|value| (least..=most).contains(value))
}

/// 1 to 20 decimal digits below 2^64.
fn number(word: &[u8]) -> Option<u64> {
    if word.is_empty() || word.len() > 20 {
        return None;
    }
    word.iter().try_fold(0u64, |value, &byte| {
        let digit = byte.is_ascii_digit().then(|| u64::from(byte - b'0'))?;
        value.checked_mul(10)?.checked_add(digit)
    })
}
