//! Calls a server that speaks memcached's text protocol: client PORT PID THREADS PIPELINE BYTES KIND CALLS. It prints the calls a second, and the
//! server's processor time a call in microseconds. PID is the server's; KIND is get or set.
use std::io::{BufRead, BufReader, Read, Write};
use std::net::TcpStream;
use std::time::Instant;

const KEYS: u64 = 10_000;

struct Plan {
    port: u16,
    pipeline: u64,
    bytes: usize,
    gets: bool,
    calls: u64,
}

fn set_of(key: u64, value: &[u8], to: &mut Vec<u8>) {
    to.extend_from_slice(format!("set key{key:08} 0 0 {}\r\n", value.len()).as_bytes());
    to.extend_from_slice(value);
    to.extend_from_slice(b"\r\n");
}

/// Makes the calls of one thread, so many at a time in flight.
fn work(plan: &Plan, seed: u64) {
    let mut stream = TcpStream::connect(("127.0.0.1", plan.port)).expect("the server listens");
    stream.set_nodelay(true).expect("a socket");
    let mut replies = BufReader::with_capacity(1 << 18, stream.try_clone().expect("a socket"));
    let (mut requests, mut line, mut data) = (Vec::new(), Vec::new(), vec![0; plan.bytes + 7]);
    let value = vec![b'v'; plan.bytes];
    let mut state = seed * 0x9e37_79b9_7f4a_7c15 + 1;
    for _ in 0..plan.calls / plan.pipeline {
        requests.clear();
        for _ in 0..plan.pipeline {
            state ^= state << 13;
            state ^= state >> 7;
            state ^= state << 17;
            let key = state % KEYS;
            if plan.gets {
                requests.extend_from_slice(format!("get key{key:08}\r\n").as_bytes());
            } else {
                set_of(key, &value, &mut requests);
            }
        }
        stream.write_all(&requests).expect("the server reads");
        for _ in 0..plan.pipeline {
            line.clear();
            replies.read_until(b'\n', &mut line).expect("a reply");
            if plan.gets && line.starts_with(b"VALUE") {
                replies.read_exact(&mut data).expect("a value");
            } else {
                assert!(line == b"STORED\r\n" || line == b"END\r\n", "{}", String::from_utf8_lossy(&line));
            }
        }
    }
}

/// The processor time that a process took, in hundredths of a second.
fn processor_time(pid: &str) -> u64 {
    let stat = std::fs::read_to_string(format!("/proc/{pid}/stat")).expect("the server runs");
    let fields: Vec<&str> = stat.rsplit(')').next().expect("a state").split_whitespace().collect();
    fields[11].parse::<u64>().expect("a number") + fields[12].parse::<u64>().expect("a number")
}

fn main() {
    let words: Vec<String> = std::env::args().collect();
    let number = |place: usize| words[place].parse::<u64>().expect("a number");
    let (threads, bytes) = (number(3), number(5) as usize);
    let plan = Plan { port: number(1) as u16, pipeline: number(4), bytes, gets: words[6] == "get", calls: number(7) };
    let mut fill = TcpStream::connect(("127.0.0.1", plan.port)).expect("the server listens");
    let mut ack = [0; 8];
    for key in 0..KEYS {
        let mut request = Vec::new();
        set_of(key, &vec![b'v'; bytes], &mut request);
        fill.write_all(&request).and_then(|()| fill.read_exact(&mut ack)).expect("STORED");
    }
    let (before, began) = (processor_time(&words[2]), Instant::now());
    std::thread::scope(|scope| {
        for seed in 1..=threads {
            let plan = &plan;
            scope.spawn(move || work(plan, seed));
        }
    });
    let calls = (threads * (plan.calls / plan.pipeline) * plan.pipeline) as f64;
    let seconds = began.elapsed().as_secs_f64();
    let busy = (processor_time(&words[2]) - before) as f64 * 10_000.0;
    println!("{:.0} {:.2}", calls / seconds, busy / calls);
}
