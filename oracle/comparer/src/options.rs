//! The words after `./compare`.

use judge::{About, Call};
use std::time::{SystemTime, UNIX_EPOCH};

pub const USAGE: &str = include_str!("../usage.txt");

pub struct Options {
    pub count: u64,
    pub seed: u64,
    pub only: Option<Call>,
    pub at: Option<u64>,
    pub about: About,
    pub self_test: bool,
    pub random_only: bool,
    pub reading: bool,
}

impl Options {
    pub fn read(words: Vec<String>) -> Result<Options, String> {
        let now = SystemTime::now().duration_since(UNIX_EPOCH).map_or(0, |since| since.as_nanos() as u64);
        let mut options = Options {
            count: 100_000,
            seed: now % 1_000_000_000,
            only: None,
            at: None,
            about: About::Mesh,
            self_test: false,
            random_only: false,
            reading: false,
        };
        let mut words = words.into_iter();
        while let Some(word) = words.next() {
            match word.as_str() {
                "--seed" => options.seed = number(&word, words.next())?,
                "--at" => options.at = Some(number(&word, words.next())?),
                "--only" => options.only = Some(call(words.next())?),
                "--files" | "--scans" => {
                    options.about = if word == "--files" { About::PanelFile } else { About::Scan };
                    options.count = number(&word, words.next())?;
                }
                "--self-test" => options.self_test = true,
                "--random" => options.random_only = true,
                "--reading" => options.reading = true,
                _ => options.count = number("COUNT", Some(word))?,
            }
        }
        Ok(options)
    }
}

fn number(what: &str, word: Option<String>) -> Result<u64, String> {
    let digits = word.unwrap_or_default().replace([',', '_'], "");
    digits.parse().map_err(|_| format!("{what}: a number is wanted, not '{digits}'"))
}

fn call(word: Option<String>) -> Result<Call, String> {
    let name = word.unwrap_or_default();
    let known: Vec<&str> = Call::ALL.iter().map(|call| call.name()).collect();
    let found = Call::ALL.into_iter().find(|call| call.name() == name.trim_start_matches("bh_"));
    found.ok_or_else(|| format!("--only: there is no call '{name}'; the calls are {}", known.join(", ")))
}
