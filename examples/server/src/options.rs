//! The options of the command line, named as memcached's are.

const USAGE: &str = "usage: noddrefil-server [-l ADDRESS] [-p PORT] [-m MEGABYTES] [-t WORKERS] [-c CONNECTIONS] [-u USUAL_ITEM]
  -l  the address to listen at: 127.0.0.1
  -p  the port: 11211; 0 takes a free one
  -m  the megabytes that the cache takes at most: 64
  -t  how many workers of the cache serve the connections, 1 to 62: 8
  -c  the most connections at once, each with a thread: 1024
  -u  the bytes of key and value that most items have: 200";

/// What the server is started with.
pub struct Options {
    pub address: String,
    pub port: u16,
    pub bytes: u64,
    pub workers: u64,
    pub connections: usize,
    pub usual_item: u64,
}

impl Options {
    /// The options of these words.
    pub fn read(mut words: impl Iterator<Item = String>) -> Result<Options, String> {
        let mut options = Options { address: "127.0.0.1".to_string(), port: 11_211, bytes: 64 << 20, workers: 8, connections: 1024, usual_item: 200 };
        while let Some(name) = words.next() {
            let set = words.next().and_then(|word| options.set(&name, &word));
            set.ok_or_else(|| format!("'{name}' is no option, or its value is missing or wrong\n{USAGE}"))?;
        }
        Ok(options)
    }

    fn set(&mut self, name: &str, word: &str) -> Option<()> {
        match name {
            "-l" => self.address = word.to_string(),
            "-p" => self.port = word.parse().ok()?,
            "-m" => self.bytes = word.parse::<u64>().ok()?.saturating_mul(1 << 20),
            "-t" => self.workers = word.parse().ok().filter(|count| *count > 0)?,
            "-c" => self.connections = word.parse().ok()?,
            "-u" => self.usual_item = word.parse().ok()?,
            _ => return None,
        }
        Some(())
    }
}
