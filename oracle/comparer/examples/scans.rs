//! For `oracle/scans`, which holds the programs that print the sheets of scans to document 02 read again.
//!
//!     scans FILES..                     the sheet of each scan, below its name
//!     scans --random COUNT SEED FROM    writes random, damaged and cut scans here, with numbers from FROM on for their names

use comparer::random::Random;
use comparer::scans;
use judge::reading::scan::sheet;

fn main() {
    let words: Vec<String> = std::env::args().skip(1).collect();
    match &words[..] {
        [first, count, seed, from] if first == "--random" => random(number(count), number(seed), number(from)),
        names => names.iter().for_each(|name| print(name)),
    }
}

fn number(word: &str) -> u64 {
    word.parse().unwrap_or_else(|_| panic!("a number is wanted, not '{word}'"))
}

fn random(count: u64, seed: u64, from: u64) {
    for index in from..from + count {
        let name = format!("{index:07}.stl");
        std::fs::write(&name, scans::random(&Random::of(seed, index))).unwrap_or_else(|why| panic!("{name}: {why}"));
    }
}

fn print(name: &str) {
    let file = std::fs::read(name).unwrap_or_else(|why| panic!("{name}: {why}"));
    print!("== {name}\n{}", sheet(&file));
}
