//! A server that speaks memcached's text protocol. Sockets and protocol are plain Rust, and unproved; the cache below is proved.
mod counts;
mod item;
mod options;
mod pages;
mod session;
mod shared;
mod store;
mod words;

use options::Options;
use shared::{lock, Shared};
use std::error::Error;
use std::net::{TcpListener, TcpStream};
use std::process::ExitCode;
use std::sync::Arc;
use std::thread;
use std::time::Duration;

/// How often the tender looks at the pages.
const WINDOW: Duration = Duration::from_secs(1);

fn main() -> ExitCode {
    let served = Options::read(std::env::args().skip(1)).map_err(Box::from).and_then(serve);
    let Err(fault) = served else { return ExitCode::SUCCESS };
    eprintln!("noddrefil-server: {fault}");
    ExitCode::FAILURE
}

fn serve(options: Options) -> Result<(), Box<dyn Error>> {
    let shared: &Shared = Box::leak(Box::new(Shared::new(&options)?)); // it stays as long as the process
    thread::Builder::new().spawn(|| loop {
        thread::sleep(WINDOW);
        lock(&shared.pages).tend();
        shared.settle_flush();
    })?;
    let listener = TcpListener::bind((options.address, options.port))?;
    println!("listening on {}", listener.local_addr()?);
    for (number, stream) in listener.incoming().flatten().enumerate() {
        if let Err(fault) = begin(stream, shared, number, options.connections) {
            eprintln!("noddrefil-server: a connection is closed: {fault}");
        }
    }
    Ok(())
}

// Starts the thread of a connection, unless as many are open as there may be.
fn begin(stream: TcpStream, shared: &'static Shared, number: usize, most: usize) -> Result<(), Box<dyn Error>> {
    let open = Arc::clone(&shared.open);
    if Arc::strong_count(&open) - 1 > most {
        return Err(format!("{most} are open").into());
    }
    stream.set_nodelay(true)?;
    thread::Builder::new().spawn(move || {
        // What a client does to its connection ends that connection alone.
        let _ended = session::serve(stream, shared, number);
        drop(open);
    })?;
    Ok(())
}
