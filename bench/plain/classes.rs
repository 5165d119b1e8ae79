//! Configurations and size classes.

pub struct Config {
    /// Bytes of a page.
    pub page: u64,
    /// Bytes of pages that may be granted.
    pub limit: u64,
    /// Bytes that the first class begins with.
    pub first: u64,
    /// The growth from class to class is `num / den`.
    pub num: u64,
    pub den: u64,
    /// Bytes of a chunk of the last class.
    pub max: u64,
    /// Item locks. A serial run has none, so the number is tested and not used.
    pub stripes: u64,
    /// Chunks that a turn of the mover looks at.
    pub bulk: u64,
}

impl Default for Config {
    fn default() -> Config {
        Config {
            page: 1024,
            limit: 4096,
            first: 48,
            num: 2,
            den: 1,
            max: 512,
            stripes: 4,
            bulk: 64,
        }
    }
}

/// The chunk sizes of a configuration. Classes are numbered from 1.
pub struct ClassTable {
    /// Bytes of a chunk, by class.
    pub sizes: Vec<usize>,
    /// Bytes of a page.
    pub page: usize,
    /// Pages that may be granted, but for the first ones of classes.
    pub pages: usize,
    /// Chunks that a turn of the mover looks at.
    pub bulk: usize,
}

impl ClassTable {
    /// The table, or the number of the first test that the configuration fails.
    pub fn build(config: &Config) -> Result<ClassTable, u8> {
        check(config)?;
        Ok(ClassTable {
            sizes: sizes(config),
            page: config.page as usize,
            pages: (config.limit / config.page) as usize,
            bulk: config.bulk as usize,
        })
    }

    /// The lowest class with room for so many bytes.
    pub fn class_for(&self, bytes: usize) -> Option<usize> {
        let below = self.sizes.partition_point(|&size| size < bytes);
        (below < self.sizes.len()).then_some(below + 1)
    }
}

fn check(config: &Config) -> Result<(), u8> {
    let Config {
        page,
        limit,
        first,
        num,
        den,
        max,
        stripes,
        bulk,
    } = *config;
    let tests = [
        page.is_multiple_of(8) && (64..=16_384).contains(&page),
        (24..=page).contains(&first),
        den != 0 && num > den && num <= 65_535,
        max.is_multiple_of(8) && max >= first && max <= page,
        page != 0 && (1..=64).contains(&(limit / page.max(1))),
        (1..=64).contains(&stripes),
    ];
    if let Some(failed) = tests.iter().position(|&passed| !passed) {
        return Err(failed as u8 + 1);
    }
    if page / sizes(config)[0] as u64 > 256 {
        return Err(7);
    }
    if (1..=256).contains(&bulk) {
        Ok(())
    } else {
        Err(8)
    }
}

/// Sizes by the factor while they are below the greatest, at most 62, and then the greatest.
fn sizes(config: &Config) -> Vec<usize> {
    let mut sizes = Vec::new();
    let mut raw = config.first;
    while sizes.len() < 62 && raw * config.num < config.max * config.den {
        let size = raw.next_multiple_of(8);
        sizes.push(size as usize);
        raw = size * config.num / config.den;
    }
    sizes.push(config.max as usize);
    sizes
}
