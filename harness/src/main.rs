//! `cargo run --release [SEED [CALLS]]`: compares every call of the archive with the scope by brute force, and says what was met.

use std::time::{SystemTime, UNIX_EPOCH};

fn main() {
    let words: Vec<String> = std::env::args().collect();
    let clock = SystemTime::now().duration_since(UNIX_EPOCH).map_or(1, |d| d.as_nanos() as u64);
    let seed = words.get(1).and_then(|w| w.parse().ok()).unwrap_or(clock);
    let calls = words.get(2).and_then(|w| w.parse().ok()).unwrap_or(2_000_000);
    println!("seed {seed}");
    let report = harness::diff::run(seed, calls);
    report.print();
    if let Some((call, number)) = report.missing() {
        println!("answer {number} of {call} was never met");
        std::process::exit(1);
    }
    println!("all alike");
}
