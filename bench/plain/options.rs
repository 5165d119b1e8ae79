//! The command line: the options of `mcslab`, each at most once.

use crate::classes::Config;

/// What the command line says, or the defaults.
pub struct Options {
    pub config: Config,
    /// Mode of the automover, 0 to 2.
    pub automove: u64,
}

impl Options {
    /// Reads the words behind the program's name, or says what is wrong with them.
    pub fn read(mut words: impl Iterator<Item = String>) -> Result<Options, String> {
        let mut config = Config::default();
        let mut automove = 0;
        let mut given: Vec<String> = Vec::new();
        while let Some(word) = words.next() {
            let (name, value) = match word.split_once('=') {
                Some((name, value)) => (name.to_string(), Some(value.to_string())),
                None => (word, None),
            };
            let value = value
                .or_else(|| words.next())
                .ok_or(format!("{name}: no value"))?;
            if given.contains(&name) {
                return Err(format!("{name}: given twice"));
            }
            match name.as_str() {
                "--page" => config.page = number(&value)?,
                "--limit" => config.limit = number(&value)?,
                "--first" => config.first = number(&value)?,
                "--factor" => (config.num, config.den) = factor(&value),
                "--max" => config.max = number(&value)?,
                "--stripes" => config.stripes = number(&value)?,
                "--bulk" => config.bulk = number(&value)?,
                "--automove" => automove = number(&value)?,
                _ => return Err(format!("{name}: unknown option")),
            }
            given.push(name);
        }
        if automove > 2 {
            return Err("--automove: 0, 1 or 2".to_string());
        }
        Ok(Options { config, automove })
    }
}

fn number(text: &str) -> Result<u64, String> {
    text.parse().map_err(|_| format!("{text}: no number"))
}

/// `NUM/DEN`, each of 1 to 5 digits. What isn't so is 0/0, which no configuration allows.
fn factor(text: &str) -> (u64, u64) {
    let parts = text.split_once('/');
    let both = parts.and_then(|(num, den)| Some((short_number(num)?, short_number(den)?)));
    both.unwrap_or((0, 0))
}

fn short_number(text: &str) -> Option<u64> {
    let digits = (1..=5).contains(&text.len()) && text.bytes().all(|byte| byte.is_ascii_digit());
    if digits {
        text.parse().ok()
    } else {
        None
    }
}
