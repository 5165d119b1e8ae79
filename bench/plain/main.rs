//! The serial program of this repository in plain Rust, without proofs: what `bench/run` compares `mcslab` with.
//!
//! It takes the same options but `--help`, reads the same scripts, writes the same replies and ends with the same
//! statuses. `bench/compare` looks for differences.

mod cache;
mod chunk;
mod classes;
mod decider;
mod mover;
mod moves;
mod options;
mod reply;
mod script;
mod serve;
mod slabs;

use std::io::{self, BufWriter, Read, Write};
use std::process::ExitCode;

use classes::ClassTable;
use options::Options;
use serve::Server;

/// The most bytes of a script.
const MOST_BYTES: usize = 1_048_576;

/// How a run ends early.
enum Fault {
    Options(String),
    Config(u8),
    Script(usize),
    TooLong,
    Read,
    Write,
    Turns,
}

impl Fault {
    fn status(&self) -> u8 {
        match self {
            Fault::Options(_) | Fault::Config(_) => 1,
            Fault::Script(_) | Fault::TooLong => 2,
            Fault::Read | Fault::Write => 3,
            Fault::Turns => 5,
        }
    }

    fn text(&self) -> String {
        match self {
            Fault::Options(text) => text.clone(),
            Fault::Config(number) => format!("config: {number}"),
            Fault::Script(line) => format!("script: line {line}"),
            Fault::TooLong => "script: too long".to_string(),
            Fault::Read => "read".to_string(),
            Fault::Write => "write".to_string(),
            Fault::Turns => "turns".to_string(),
        }
    }
}

/// The whole of standard input, as far as a script may go.
fn read_script() -> Result<Vec<u8>, Fault> {
    let mut bytes = Vec::new();
    let most = MOST_BYTES as u64 + 1;
    io::stdin()
        .lock()
        .take(most)
        .read_to_end(&mut bytes)
        .map_err(|_| Fault::Read)?;
    if bytes.len() > MOST_BYTES {
        return Err(Fault::TooLong);
    }
    Ok(bytes)
}

fn run() -> Result<(), Fault> {
    let options = Options::read(std::env::args().skip(1)).map_err(Fault::Options)?;
    let table = ClassTable::build(&options.config).map_err(Fault::Config)?;
    let commands = script::read(&read_script()?).map_err(Fault::Script)?;
    let mut server = Server::new(table, &options);
    let mut output = BufWriter::new(io::stdout().lock());
    let mut reply = Vec::new();
    for command in &commands {
        reply.clear();
        if server.serve(command, &mut reply).is_err() {
            output.flush().map_err(|_| Fault::Write)?;
            return Err(Fault::Turns);
        }
        output.write_all(&reply).map_err(|_| Fault::Write)?;
    }
    output.flush().map_err(|_| Fault::Write)
}

fn main() -> ExitCode {
    match run() {
        Ok(()) => ExitCode::SUCCESS,
        Err(fault) => {
            eprintln!("plain: {}", fault.text());
            ExitCode::from(fault.status())
        }
    }
}
