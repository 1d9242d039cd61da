//! `cargo run --release --bin stores [COLUMNS ..]`: what each kind of edit of the archive stores and loads of the layer's slice, counted from
//! a trace of memory by valgrind, for tables of so many columns (3 and 8 where none is said).

use harness::edits::{self, Case, Sum};
use harness::trace;

fn main() {
    let words: Vec<String> = std::env::args().skip(1).collect();
    if words == ["traced"] {
        return trace::serve();
    }
    let mut columns: Vec<usize> = words.iter().filter_map(|w| w.parse().ok()).filter(|c| (1..=8).contains(c)).collect();
    if columns.is_empty() {
        columns = vec![3, 8];
    }
    let program = std::env::current_exe().unwrap();
    let mut cases: Vec<Case> = columns.into_iter().flat_map(edits::all).collect();
    let mut counted = |plain: bool| {
        cases.iter_mut().for_each(|case| case.call.plain = plain);
        edits::sums(&program, &mut cases).unwrap_or_else(|words| {
            eprintln!("{words}");
            std::process::exit(1)
        })
    };
    let (plain, sums) = (counted(true), counted(false));
    println!("Loads are multiples of the layer's numbers, m (c + 2); where there are none, numbers.\n\n{}", edits::HEADING);
    cases.iter().zip(&sums).for_each(|(case, sum)| println!("{}", edits::line(case, sum)));
    println!("\nBy kind, the most of all the above, and the same of plain C; loads, of layers of 510 entries and more\n");
    println!("| edit | most stores of a number | loads | the rest beside the move | plain C: stores | loads | the rest |\n|---|---|---|---|---|---|---|");
    let mut kinds: Vec<&str> = cases.iter().map(|case| case.kind).collect();
    kinds.sort_unstable();
    kinds.dedup();
    for kind in kinds {
        print!("| {kind} ");
        for all in [&sums, &plain] {
            let own = || cases.iter().zip(all).filter(|(case, _)| case.kind == kind);
            let most = own().map(|(_, sum)| sum.most).max().unwrap_or(0);
            let long = |loads: fn(&Sum) -> usize| {
                let times = |(case, sum): (&Case, &Sum)| loads(sum) as f64 / (case.call.m * (case.call.c + 2)) as f64;
                own().filter(|(case, _)| case.call.m >= 510).map(times).fold(0.0, f64::max)
            };
            print!("| {most} | {:.2} | {:.2} ", long(|s| s.loads), long(|s| s.loads - s.tail));
        }
        println!("|");
    }
}
