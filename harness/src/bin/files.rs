//! `cargo run --release --bin files [SEED [FILES [REPETITIONS]]]`: compares the file calls with the request, then measures the
//! check, load and save beside the same in plain C, and beside memcpy of the file. The versions run in turn; a time is a median.

use harness::{file, scope, Rng};
use std::hint::black_box;
use std::time::{Instant, SystemTime, UNIX_EPOCH};

const TURNS: usize = 20;

/// The median time of each piece of work, in nanoseconds.
fn medians<const K: usize>(repetitions: usize, mut work: [&mut dyn FnMut(); K]) -> [f64; K] {
    let mut seen = [(); K].map(|_| Vec::new());
    for round in 0..repetitions + 20 {
        for (w, all) in work.iter_mut().zip(&mut seen) {
            let start = Instant::now();
            for _ in 0..TURNS {
                w();
            }
            if round >= 20 {
                all.push(start.elapsed().as_nanos() as f64 / TURNS as f64);
            }
        }
    }
    seen.map(|mut all| {
        all.sort_by(f64::total_cmp);
        all[all.len() / 2]
    })
}

fn measure(repetitions: usize) {
    println!("nanoseconds of the archive / of plain C = ratio; the bar is 1.25");
    for c in [3, 8] {
        for m in [0, 16, 64, 512] {
            let n = 3500;
            let entries = file::layer(&mut Rng::new(5), c, n, m);
            let numbers = scope::numbers(&entries);
            let saved = file::bytes(c as u64, n as u64, entries.len() as u64, &numbers);
            let (mut one, mut two, mut three) = (vec![0; 41_000], vec![0; 41_000], vec![0; 41_000]);
            let (mut to, mut fro) = (vec![0; 5120], vec![0; 5120]);
            let t = medians(repetitions, [
                &mut || {
                    black_box(file::card_number(black_box(&saved)));
                },
                &mut || {
                    black_box(file::plain_check_of(black_box(&saved)));
                },
                &mut || {
                    black_box(file::card_load(black_box(&saved), &mut to));
                },
                &mut || {
                    black_box(file::plain_load_of(black_box(&saved), &mut fro));
                },
                &mut || {
                    black_box(file::card_save(c, n, entries.len(), black_box(&numbers), &mut one));
                },
                &mut || {
                    black_box(file::plain_save_of(c, n, entries.len(), black_box(&numbers), &mut two));
                },
                &mut || black_box(&mut three)[..saved.len()].copy_from_slice(black_box(&saved)),
            ]);
            assert!(one == two && to == fro);
            let cell = |i: usize| format!("{:.0} / {:.0} = {:.2}", t[i], t[i + 1], t[i] / t[i + 1]);
            println!("| {c} | {} | {} | {} | {} | {:.0} |", entries.len(), cell(0), cell(2), cell(4), t[6]);
        }
    }
}

fn main() {
    let words: Vec<u64> = std::env::args().skip(1).filter_map(|w| w.parse().ok()).collect();
    let clock = SystemTime::now().duration_since(UNIX_EPOCH).map_or(1, |d| d.as_nanos() as u64);
    let seed = words.first().copied().unwrap_or(clock);
    println!("seed {seed}");
    let report = file::run(seed, words.get(1).copied().unwrap_or(100_000));
    report.print();
    if let Some((call, number)) = report.missing() {
        println!("answer {number} of {call} was never met");
        std::process::exit(1);
    }
    println!("all alike");
    measure(words.get(2).copied().unwrap_or(301) as usize);
}
