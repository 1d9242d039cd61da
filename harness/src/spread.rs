//! Tables and layers to measure with.

use crate::scope::{self, Entry};

/// The key column of a table of n rows.
pub fn keys(n: usize) -> Vec<u64> {
    (0..n as u64).map(|i| 10 * i + 5).collect()
}

/// A layer of m entries: strikes, changes (adds where there is but the key) and adds in turn, spread evenly, none before position `from`.
pub fn spread(c: usize, keys: &[u64], m: usize, from: usize) -> Vec<Entry> {
    (0..m)
        .map(|i| {
            let s = i * keys.len() / m.max(1) + from;
            let mut vals = vec![0; c];
            match i % 3 {
                0 => {
                    vals[0] = keys[s];
                    Entry { pos: s as u64, kind: scope::STRIKE, vals }
                }
                1 if c > 1 => {
                    vals[0] = 77;
                    Entry { pos: s as u64, kind: 1 + (i / 3 % (c - 1)) as u64, vals }
                }
                _ => {
                    vals.fill(9);
                    vals[0] = keys[s] - 1;
                    Entry { pos: s as u64, kind: scope::ADD, vals }
                }
            }
        })
        .collect()
}
