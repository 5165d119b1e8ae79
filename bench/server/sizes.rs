//! Changes the size of values under a server that speaks memcached's text protocol: sizes PORT THREADS RATE SECONDS FILL SMALL KEYS LARGE. It stores
//! FILL values of SMALL bytes. Then it gets values of LARGE bytes of KEYS other keys, RATE a second, by a skewed draw, and stores each one that is
//! missing. It prints the part of gets that hit in each eighth of the seconds, and how many seconds it was late at most.
use std::io::{BufRead, BufReader, Read, Write};
use std::net::TcpStream;
use std::time::{Duration, Instant};

const PARTS: usize = 8;
const PIPELINE: usize = 32;
const SKEW: f64 = 0.99;

struct Plan {
    port: u16,
    // How many batches of gets a thread makes, and how long one may take.
    batches: usize,
    pause: Duration,
    large: usize,
    // The sums of the weights of the keys up to each one.
    sums: Vec<f64>,
}

struct Client {
    stream: TcpStream,
    replies: BufReader<TcpStream>,
    requests: Vec<u8>,
    line: Vec<u8>,
    data: Vec<u8>,
}

impl Client {
    fn new(port: u16) -> Client {
        let stream = TcpStream::connect(("127.0.0.1", port)).expect("the server listens");
        stream.set_nodelay(true).expect("a socket");
        let replies = BufReader::with_capacity(1 << 18, stream.try_clone().expect("a socket"));
        Client { stream, replies, requests: Vec::new(), line: Vec::new(), data: Vec::new() }
    }

    fn ask_set(&mut self, key: &str, bytes: usize) {
        let data = value(key, bytes);
        self.requests.extend_from_slice(format!("set {key} 0 0 {bytes}\r\n{data}\r\n").as_bytes());
    }

    fn send(&mut self) {
        self.stream.write_all(&self.requests).expect("the server reads");
        self.requests.clear();
    }

    fn next_line(&mut self) -> &[u8] {
        self.line.clear();
        self.replies.read_until(b'\n', &mut self.line).expect("a reply");
        &self.line
    }

    /// Sends the sets that were asked, and waits for their replies. A refused one, for want of room, isn't stored.
    fn set(&mut self, count: usize) {
        self.send();
        for _ in 0..count {
            let line = self.next_line();
            assert!(line == b"STORED\r\n" || line.starts_with(b"SERVER_ERROR"), "{}", String::from_utf8_lossy(line));
        }
    }

    /// Gets the keys, and returns those that have no value.
    fn get(&mut self, keys: &[String], bytes: usize) -> Vec<String> {
        for key in keys {
            self.requests.extend_from_slice(format!("get {key}\r\n").as_bytes());
        }
        self.send();
        keys.iter().filter(|key| !self.has(key, bytes)).cloned().collect()
    }

    fn has(&mut self, key: &str, bytes: usize) -> bool {
        let line = self.next_line();
        if line == b"END\r\n" {
            return false;
        }
        assert!(line == format!("VALUE {key} 0 {bytes}\r\n").as_bytes(), "{}", String::from_utf8_lossy(line));
        self.data.resize(bytes + 7, 0);
        self.replies.read_exact(&mut self.data).expect("a value");
        assert!(self.data == format!("{}\r\nEND\r\n", value(key, bytes)).as_bytes(), "the value of {key}");
        true
    }
}

/// The value of a key: the key over and over.
fn value(key: &str, bytes: usize) -> String {
    let mut text = key.repeat(bytes / key.len() + 1);
    text.truncate(bytes);
    text
}

fn fill(port: u16, count: usize, bytes: usize) {
    let mut client = Client::new(port);
    for begin in (0..count).step_by(PIPELINE) {
        let end = count.min(begin + PIPELINE);
        for place in begin..end {
            client.ask_set(&format!("small{place:09}"), bytes);
        }
        client.set(end - begin);
    }
}

/// The calls of one thread: how many gets hit in each part, and how late it was at most.
fn work(plan: &Plan, seed: u64) -> ([usize; PARTS], Duration) {
    let mut client = Client::new(plan.port);
    let (mut hits, mut late) = ([0; PARTS], Duration::ZERO);
    let mut state = seed * 0x9e37_79b9_7f4a_7c15 + 1;
    let began = Instant::now();
    for batch in 0..plan.batches {
        let due = plan.pause * batch as u32;
        std::thread::sleep(due.saturating_sub(began.elapsed()));
        late = late.max(began.elapsed().saturating_sub(due));
        let keys: Vec<String> = (0..PIPELINE)
            .map(|_| {
                state ^= state << 13;
                state ^= state >> 7;
                state ^= state << 17;
                let drawn = (state >> 11) as f64 / (1u64 << 53) as f64 * plan.sums[plan.sums.len() - 1];
                format!("large{:09}", plan.sums.partition_point(|sum| *sum < drawn))
            })
            .collect();
        let missing = client.get(&keys, plan.large);
        hits[batch * PARTS / plan.batches] += PIPELINE - missing.len();
        for key in &missing {
            client.ask_set(key, plan.large);
        }
        client.set(missing.len());
    }
    (hits, late)
}

fn main() {
    let words: Vec<String> = std::env::args().collect();
    let number = |place: usize| words[place].parse::<usize>().expect("a number");
    let (threads, rate, seconds) = (number(2), number(3), number(4));
    let mut sum = 0.0;
    let weights = (0..number(7)).map(|place| 1.0 / (place as f64 + 1.0).powf(SKEW));
    let plan = Plan {
        port: number(1) as u16,
        batches: (rate * seconds / threads / PIPELINE).max(PARTS),
        pause: Duration::from_secs(1) * (threads * PIPELINE) as u32 / rate as u32,
        large: number(8),
        sums: weights
            .map(|weight| {
                sum += weight;
                sum
            })
            .collect(),
    };
    fill(plan.port, number(5), number(6));
    let its = &plan;
    let told: Vec<_> = std::thread::scope(|scope| {
        let begun: Vec<_> = (1..=threads as u64).map(|seed| scope.spawn(move || work(its, seed))).collect();
        begun.into_iter().map(|thread| thread.join().expect("no wrong reply")).collect()
    });
    for part in 0..PARTS {
        let batches = (0..plan.batches).filter(|batch| batch * PARTS / plan.batches == part).count();
        let hits: usize = told.iter().map(|(hits, _)| hits[part]).sum();
        print!("{:.3} ", hits as f64 / (threads * batches * PIPELINE) as f64);
    }
    println!("{:.1}", told.iter().map(|(_, late)| late.as_secs_f64()).fold(0.0, f64::max));
}
