//! An edit stores no number of the new layer twice, none in front of its place and none outside the layer, and a refused edit stores none, nor
//! a renumbering of a row to its own number: counted from a trace of memory of the built archive, not from its source.

use harness::edits::{self, Case, CONTROLS};
use std::path::Path;

fn counted(mut cases: Vec<Case>) -> Vec<(Case, edits::Sum)> {
    let program = Path::new(env!("CARGO_BIN_EXE_stores"));
    let sums = edits::sums(program, &mut cases).unwrap_or_else(|words| panic!("{words}"));
    println!("{} edits, of them {} renumberings", cases.len(), cases.iter().filter(|case| case.kind.contains("renumber")).count());
    cases.into_iter().zip(sums).collect()
}

/// Fails with the table of the edits that break a bar.
fn all_kept(counted: &[(Case, edits::Sum)]) {
    let over: Vec<String> = counted.iter().filter(|(_, s)| !s.broken().is_empty()).map(|(k, s)| edits::line(k, s)).collect();
    assert!(over.is_empty(), "{} edits of {} break a bar\n{}\n{}", over.len(), counted.len(), edits::HEADING, over.join("\n"));
}

#[test]
fn once() {
    let counted = counted((1..=8).flat_map(edits::all).collect());
    for (case, sum) in counted.iter().filter(|(k, _)| k.value_changes() && k.call.m == 511) {
        println!("{} {}, c = {}: {} numbers stored", case.kind, case.at, case.call.c, sum.stored);
    }
    all_kept(&counted);
}

#[test]
fn refused() {
    let counted = counted((1..=8).flat_map(|c| [0, 1, 9, 68, 512].map(|m| edits::refused(c, m))).flatten().collect());
    for (case, sum) in &counted {
        assert!(case.refused() && sum.stored == 0, "{}", edits::line(case, sum));
    }
    all_kept(&counted);
}

#[test]
fn own_number() {
    let counted = counted((1..=8).flat_map(|c| [0, 1, 9, 68, 512].map(|m| edits::own_numbers(c, m))).flatten().collect());
    for (case, sum) in &counted {
        assert!(case.nothing_changes() && sum.stored == 0, "{}", edits::line(case, sum));
    }
    all_kept(&counted);
}

#[test]
fn control_is_caught() {
    let counted = counted((3..=8).flat_map(edits::controls).collect());
    assert_eq!(counted.len(), 6 * CONTROLS.len());
    for (x, (case, sum)) in counted.iter().enumerate() {
        let (broken, word) = (sum.broken(), CONTROLS[x % CONTROLS.len()]);
        assert!(broken.len() == 1 && broken[0].contains(word), "{}", edits::line(case, sum));
    }
}
