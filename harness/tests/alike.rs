//! The archive and the scope answer alike: on a million calls and a seed of the day, with every refusal met, and on renumberings worked out by hand.

use harness::calls::{CARD, PLAIN};
use harness::scope::{self, Pair, ADD, STRIKE};

#[test]
fn alike() {
    let seed = std::time::SystemTime::now().duration_since(std::time::UNIX_EPOCH).map_or(1, |d| d.as_secs());
    println!("seed {seed}");
    let report = harness::diff::run(seed, 1_000_000);
    report.print();
    assert_eq!(report.missing(), None);
}

/// A renumbering with its answer and what it leaves, for the scope, plain C and the archive.
#[allow(clippy::too_many_arguments)]
fn renumbers(c: usize, n: usize, table: &[u64], m: usize, layer: &[u64], r: usize, g: u64, answer: Pair, after: &[u64]) {
    let mut slices = [layer.to_vec(), layer.to_vec(), layer.to_vec()];
    let [one, two, three] = &mut slices;
    let answers = [
        scope::kw_renumber(c, n, m, one, table, r, g),
        PLAIN.renumber(c, n, m, two, table, r, g),
        CARD.renumber(c, n, m, three, table, r, g),
    ];
    for (who, (got, slice)) in ["the scope", "plain C", "the archive"].into_iter().zip(answers.into_iter().zip(&slices)) {
        let differ = slice.iter().zip(after).position(|(x, y)| x != y);
        assert_eq!((got, differ, slice.len()), (answer, None, after.len()), "row {r} to {g} by {who}, c = {c}, m = {m}: {slice:?}");
    }
}

/// Refused, and nothing changed.
fn refuses(c: usize, n: usize, table: &[u64], m: usize, layer: &[u64], r: usize, g: u64, number: u64) {
    renumbers(c, n, table, m, layer, r, g, (number, 0), layer);
}

/// The scope's base: (10,1) (20,2) (30,4) (40,8).
const FOUR: [u64; 8] = [10, 20, 30, 40, 1, 2, 4, 8];
/// Three columns of two rows, and four of one.
const TWO: [u64; 6] = [10, 20, 1, 2, 5, 6];
const ONE: [u64; 4] = [10, 1, 2, 3];

#[test]
fn base_rows() {
    let free = [77; 9];
    // up, down, in its own place, to the front, to the end
    renumbers(2, 4, &FOUR, 0, &free, 0, 25, (0, 2), &[0, STRIKE, 10, 0, 2, ADD, 25, 1, 77]);
    renumbers(2, 4, &FOUR, 0, &free, 3, 15, (0, 2), &[1, ADD, 15, 8, 3, STRIKE, 40, 0, 77]);
    renumbers(2, 4, &FOUR, 0, &free, 1, 19, (0, 2), &[1, ADD, 19, 2, 1, STRIKE, 20, 0, 77]);
    renumbers(2, 4, &FOUR, 0, &free, 1, 21, (0, 2), &[1, STRIKE, 20, 0, 2, ADD, 21, 2, 77]);
    renumbers(2, 4, &FOUR, 0, &free, 2, 0, (0, 2), &[0, ADD, 0, 4, 2, STRIKE, 30, 0, 77]);
    renumbers(2, 4, &FOUR, 0, &free, 2, u64::MAX, (0, 2), &[2, STRIKE, 30, 0, 4, ADD, u64::MAX, 4, 77]);
    // its change goes with it, another row's stays
    let changed = [1, 1, 9, 0, 3, 1, 7, 0, 77, 77, 77, 77];
    renumbers(2, 4, &FOUR, 2, &changed, 3, 15, (0, 3), &[1, ADD, 15, 7, 1, 1, 9, 0, 3, STRIKE, 40, 0]);
    renumbers(2, 4, &FOUR, 2, &changed, 1, 50, (0, 3), &[1, STRIKE, 20, 0, 3, 1, 7, 0, 4, ADD, 50, 9]);
    // of three changes two entries more are freed than come
    let three = [0, 1, 7, 0, 0, 0, 0, 2, 8, 0, 0, 0, 0, 3, 9, 0, 0, 0];
    renumbers(4, 1, &ONE, 3, &three, 0, 5, (0, 2), &[0, ADD, 5, 7, 8, 9, 0, STRIKE, 10, 0, 0, 0, 0, 0, 0, 0, 0, 0]);
    renumbers(4, 1, &ONE, 3, &three, 0, 15, (0, 2), &[0, STRIKE, 10, 0, 0, 0, 1, ADD, 15, 7, 8, 9, 0, 0, 0, 0, 0, 0]);
    // one column: a strike and a number
    renumbers(1, 2, &[10, 20], 0, &[77; 7], 0, 30, (0, 2), &[0, STRIKE, 10, 2, ADD, 30, 77]);
    // eight columns, the last of two changed
    let wide: Vec<u64> = (0..8).flat_map(|j| [10 + j, 20 + j]).collect();
    let mut layer = vec![1, 6, 66, 0, 0, 0, 0, 0, 0, 0, 1, 7, 77, 0, 0, 0, 0, 0, 0, 0];
    let after = [1, ADD, 19, 21, 22, 23, 24, 25, 66, 77, 1, STRIKE, 20, 0, 0, 0, 0, 0, 0, 0];
    renumbers(8, 2, &wide, 2, &layer, 1, 19, (0, 2), &after);
    layer[11] = 5; // no order of columns: form
    renumbers(8, 2, &wide, 2, &layer, 1, 19, (2, 1), &layer);
}

#[test]
fn added_rows() {
    let one = [2, ADD, 25, 7, 77];
    renumbers(2, 4, &FOUR, 1, &one, 2, 35, (0, 1), &[3, ADD, 35, 7, 77]);
    renumbers(2, 4, &FOUR, 1, &one, 2, 5, (0, 1), &[0, ADD, 5, 7, 77]);
    renumbers(2, 4, &FOUR, 1, &one, 2, 26, (0, 1), &[2, ADD, 26, 7, 77]);
    // past another's entries, up and down
    let three = [1, STRIKE, 20, 0, 2, ADD, 25, 7, 2, ADD, 27, 9];
    renumbers(2, 4, &FOUR, 3, &three, 1, 28, (0, 3), &[1, STRIKE, 20, 0, 2, ADD, 27, 9, 2, ADD, 28, 7]);
    renumbers(2, 4, &FOUR, 3, &three, 2, 22, (0, 3), &[1, STRIKE, 20, 0, 2, ADD, 22, 9, 2, ADD, 25, 7]);
    renumbers(2, 4, &FOUR, 3, &three, 2, 1, (0, 3), &[0, ADD, 1, 9, 1, STRIKE, 20, 0, 2, ADD, 25, 7]);
    // to a struck number: its add stands before the strike
    renumbers(2, 4, &FOUR, 3, &three, 2, 20, (0, 3), &[1, ADD, 20, 9, 1, STRIKE, 20, 0, 2, ADD, 25, 7]);
    // over no rows
    renumbers(2, 0, &[], 2, &[0, ADD, 5, 1, 0, ADD, 6, 2], 0, 7, (0, 2), &[0, ADD, 6, 2, 0, ADD, 7, 1]);
}

#[test]
fn own_number() {
    renumbers(2, 4, &FOUR, 0, &[], 1, 20, (0, 0), &[]);
    let layer = [2, ADD, 25, 7, 2, 1, 9, 0, 77];
    renumbers(2, 4, &FOUR, 2, &layer, 2, 25, (0, 2), &layer);
    renumbers(2, 4, &FOUR, 2, &layer, 3, 30, (0, 2), &layer);
}

#[test]
fn there_and_back() {
    // an added row leaves the layer as it was, a base row a strike and an add
    renumbers(2, 4, &FOUR, 1, &[4, ADD, 45, 7], 4, 25, (0, 1), &[2, ADD, 25, 7]);
    renumbers(2, 4, &FOUR, 1, &[2, ADD, 25, 7], 2, 45, (0, 1), &[4, ADD, 45, 7]);
    renumbers(2, 4, &FOUR, 2, &[1, STRIKE, 20, 0, 2, ADD, 25, 2], 1, 20, (0, 2), &[1, ADD, 20, 2, 1, STRIKE, 20, 0]);
}

#[test]
fn room() {
    // a base row needs two entries more, less its changes: one place is free, and a strike alone would find room
    refuses(2, 4, &FOUR, 1, &[2, ADD, 25, 7, 77, 77, 77, 77], 0, 5, 9);
    refuses(2, 4, &FOUR, 1, &[2, 1, 9, 0], 2, 5, 9);
    renumbers(2, 4, &FOUR, 1, &[2, 1, 9, 0, 77, 77, 77, 77], 2, 5, (0, 2), &[0, ADD, 5, 9, 2, STRIKE, 30, 0]);
    refuses(2, 4, &FOUR, 0, &[77; 7], 0, 5, 9);
    // two changes make room for both in a full slice
    let two = [1, 1, 7, 0, 0, 1, 2, 8, 0, 0];
    renumbers(3, 2, &TWO, 2, &two, 1, 5, (0, 2), &[0, ADD, 5, 7, 8, 1, STRIKE, 20, 0, 0]);
    renumbers(3, 2, &TWO, 2, &two, 1, 25, (0, 2), &[1, STRIKE, 20, 0, 0, 2, ADD, 25, 7, 8]);
    refuses(3, 2, &TWO, 2, &two, 0, 5, 9);
    // 512 entries: an added row, and a row of two changes and more; no base row of one change or none, in a longer slice either
    let adds: Vec<u64> = (0..512).flat_map(|i| [1, ADD, 1000 + 2 * i]).collect();
    for spare in [0, 9] {
        let mut layer = adds.clone();
        layer.resize(512 * 3 + spare, 77);
        let mut after = layer.clone();
        after[2] = 1001;
        renumbers(1, 1, &[10], 512, &layer, 1, 1001, (0, 512), &after);
        after[..511 * 3].copy_from_slice(&layer[3..512 * 3]);
        after[511 * 3 + 2] = 5000;
        renumbers(1, 1, &[10], 512, &layer, 1, 5000, (0, 512), &after);
        after.copy_from_slice(&layer);
        after[3..512 * 3].copy_from_slice(&layer[..511 * 3]);
        after[..3].copy_from_slice(&[0, ADD, 5]);
        renumbers(1, 1, &[10], 512, &layer, 512, 5, (0, 512), &after);
        refuses(1, 1, &[10], 512, &layer, 0, 5, 9);
        refuses(1, 1, &[10], 511, &layer, 0, 5, 9);
    }
    let mut pairs: Vec<u64> = (0..256).flat_map(|s| [s, 1, 7, 0, 0, s, 2, 8, 0, 0]).collect();
    let table: Vec<u64> = (0..3).flat_map(|j| (0..257).map(move |s| 10 * s + j + 1)).collect();
    pairs.extend([77; 12]);
    let mut after = pairs.clone();
    after[5..1285].copy_from_slice(&pairs[..1280]);
    after[1285..1290].copy_from_slice(&[128, STRIKE, 1281, 0, 0]);
    after[..5].copy_from_slice(&[0, ADD, 0, 7, 8]);
    renumbers(3, 257, &table, 512, &pairs, 128, 0, (0, 512), &after);
    refuses(3, 257, &table, 512, &pairs, 256, 0, 9);
}

#[test]
fn refusals_in_order() {
    let free = [77; 8];
    for c in [0, 9, usize::MAX, usize::MAX - 1] {
        refuses(c, 4, &[0; 40], 0, &free, 0, 5, 1);
    }
    for n in [4097, usize::MAX, usize::MAX / 2 + 1] {
        refuses(2, n, &FOUR, 0, &free, 0, 5, 1);
    }
    for m in [3, 513, usize::MAX, usize::MAX / 4 + 1] {
        refuses(2, 4, &FOUR, m, &free, 0, 5, 1);
    }
    // a table one number short, before form; a longer one
    refuses(2, 4, &FOUR[..7], 1, &[9, 9, 9, 9], 0, 5, 1);
    refuses(2, 4, &[], 0, &free, 0, 5, 1);
    let long: Vec<u64> = FOUR.iter().copied().chain([3, 2, 1]).collect();
    renumbers(2, 4, &long, 0, &[77; 8], 0, 5, (0, 2), &[0, ADD, 5, 1, 0, STRIKE, 10, 0]);
    // form, the keys (column 0, and no other), fit
    renumbers(2, 4, &FOUR, 2, &[0, STRIKE, 10, 0, 9, 9, 9, 9], 0, 5, (2, 1), &[0, STRIKE, 10, 0, 9, 9, 9, 9]);
    refuses(2, 4, &[10, 20, 20, 40, 1, 2, 3, 4], 0, &free, 9, 20, 3);
    renumbers(2, 4, &[10, 20, 30, 40, 4, 3, 3, 1], 0, &free, 0, 5, (0, 2), &[0, ADD, 5, 4, 0, STRIKE, 10, 0]);
    renumbers(2, 4, &FOUR, 2, &[0, STRIKE, 10, 0, 1, STRIKE, 21, 0], 9, 5, (4, 1), &[0, STRIKE, 10, 0, 1, STRIKE, 21, 0]);
    // the row before its number, the number before the room
    for r in [4, 5, usize::MAX] {
        refuses(2, 4, &FOUR, 0, &[], r, 20, 5);
    }
    refuses(2, 0, &[], 0, &[], 0, 5, 5);
    refuses(2, 4, &FOUR, 0, &[], 0, 20, 7);
    refuses(2, 4, &FOUR, 1, &[2, ADD, 25, 7], 0, 25, 7);
    refuses(2, 4, &FOUR, 2, &[2, ADD, 25, 7, 2, ADD, 27, 7], 2, 27, 7);
    refuses(2, 4, &FOUR, 2, &[2, ADD, 30, 7, 2, STRIKE, 30, 0], 0, 30, 7);
    refuses(2, 4, &FOUR, 0, &[], 0, 5, 9);
    // 4,096 rows stand, and go on to
    let rows: Vec<u64> = (0..4096).map(|s| 2 * s + 1).collect();
    renumbers(1, 4096, &rows, 0, &[77; 6], 4095, 0, (0, 2), &[0, ADD, 0, 4095, STRIKE, 8191]);
}
