//! Two threads store and read bytes in one cache of 16 MiB.
use noddrefil::{Cache, Config, Error, Worker};
use std::thread;

fn work(mut worker: Worker) -> Result<(), Error> {
    let mut value = Vec::new();
    worker.set(b"greeting", b"hello")?;
    let found = worker.get(b"greeting", &mut value)?;
    println!("found {found}: {}", String::from_utf8_lossy(&value));
    Ok(())
}

fn main() -> Result<(), Error> {
    let config = Config::for_bytes(16 << 20, 100, 2)?.with_hash_key(1, 2);
    let cache = Cache::open(&config)?;
    let (one, other) = (cache.worker()?, cache.worker()?);
    let thread = thread::spawn(move || work(other));
    work(one)?;
    thread.join().expect("the other thread ended")
}
