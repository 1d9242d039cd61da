//! `cargo run --release --bin bench [REPETITIONS]`: each call of the archive beside the same in plain C, as one table of ratios.
//! Both run in turn on the same warmed buffers; a time is the median of the repetitions.

use harness::calls::{Calls, CARD, PLAIN};
use harness::scope::{self, Entry, Pair};
use harness::spread::{keys, spread};
use std::cell::RefCell;
use std::hint::black_box;
use std::time::Instant;

extern "C" {
    fn plain_by_key(
        keys: *const u64, base: *const u64, n: usize, added: *const u64, value: *const u64, na: usize, gone: *const u64, ng: usize,
        out: *mut u64,
    ) -> usize;
}

fn ticks() -> u64 {
    unsafe {
        std::arch::x86_64::_mm_lfence();
        let t = std::arch::x86_64::_rdtsc();
        std::arch::x86_64::_mm_lfence();
        t
    }
}

/// How the time is taken: repetitions, nanoseconds a tick, and the ticks that taking the time itself takes.
struct Clock {
    repetitions: usize,
    nanoseconds: f64,
    own: u64,
}

fn median(mut times: Vec<u64>) -> u64 {
    times.sort_unstable();
    times[times.len() / 2]
}

impl Clock {
    fn new(repetitions: usize) -> Self {
        let (start, t) = (Instant::now(), ticks());
        while start.elapsed().as_millis() < 200 {}
        let nanoseconds = start.elapsed().as_nanos() as f64 / (ticks() - t) as f64;
        let own = median((0..1001).map(|_| { let t = ticks(); ticks() - t }).collect());
        Clock { repetitions, nanoseconds, own }
    }

    /// The median time of each piece of work in nanoseconds, done `times` over between two looks at the clock.
    fn medians(&self, times: usize, work: &mut [&mut dyn FnMut(bool)]) -> Vec<f64> {
        let mut seen: Vec<Vec<u64>> = work.iter().map(|_| Vec::new()).collect();
        for round in 0..self.repetitions + 20 {
            for (w, all) in work.iter_mut().zip(&mut seen) {
                w(false);
                let start = ticks();
                for _ in 0..times {
                    w(true);
                }
                let took = (ticks() - start).saturating_sub(self.own);
                if round >= 20 {
                    all.push(took);
                }
            }
        }
        seen.into_iter().map(|all| median(all) as f64 * self.nanoseconds / times as f64).collect()
    }

    /// A call of the archive and of plain C, each on its own slice, made ready before the time is taken.
    fn each(&self, times: usize, from: &[u64], ready: impl Fn(&mut [u64]), call: impl Fn(&Calls, &mut [u64]) -> Pair) -> (f64, f64) {
        let mut slices = [from.to_vec(), from.to_vec()];
        for (who, slice) in [&CARD, &PLAIN].into_iter().zip(&mut slices) {
            let answer = call(who, slice);
            assert_eq!(answer.0, 0, "{} refuses", who.name);
        }
        assert!(slices[0] == slices[1]);
        let [one, two] = &mut slices;
        let step = |who: &'static Calls, slice: &mut [u64], timed: bool| {
            if timed {
                black_box(call(who, slice));
            } else {
                ready(slice);
            }
        };
        let t = self.medians(times, &mut [&mut |timed| step(&CARD, one, timed), &mut |timed| step(&PLAIN, two, timed)]);
        (t[0], t[1])
    }

    /// The slice is `from` anew where the call alters it.
    fn both(&self, times: usize, from: &[u64], alters: bool, call: impl Fn(&Calls, &mut [u64]) -> Pair) -> (f64, f64) {
        if alters {
            self.each(1, from, |slice| slice.copy_from_slice(from), call)
        } else {
            self.each(times, from, |_| (), call)
        }
    }

    /// The slice, one for both, is `from` anew, and no line of it is in a cache.
    fn slow(&self, from: &[u64], call: impl Fn(&Calls, &mut [u64]) -> Pair) -> (f64, f64) {
        let slice = RefCell::new(from.to_vec());
        let step = |who: &'static Calls, timed: bool| {
            let slice = &mut slice.borrow_mut()[..];
            if timed {
                assert_eq!(call(who, slice).0, 0, "{} refuses", who.name);
            } else {
                slice.copy_from_slice(from);
                flush(slice);
            }
        };
        let t = self.medians(1, &mut [&mut |timed| step(&CARD, timed), &mut |timed| step(&PLAIN, timed)]);
        (t[0], t[1])
    }
}

/// Drops every line of a slice from the caches.
fn flush(slice: &[u64]) {
    use std::arch::x86_64::{_mm_clflush, _mm_mfence};
    for number in slice.iter().step_by(8).chain(slice.last()) {
        unsafe { _mm_clflush((number as *const u64).cast()) };
    }
    unsafe { _mm_mfence() };
}

fn padded(c: usize, layer: &[Entry]) -> Vec<u64> {
    let mut raw = scope::numbers(layer);
    raw.resize(512 * (c + 2), 0);
    raw
}

const CALLS: [&str; 12] = ["fit", "read", "view", "shift", "row", "back", "add", "strike", "change", "renumber", "move", "combine"];

/// A base row of no entries in the middle of a table that is lent whole, its row number, and a group number three quarters down the table:
/// what a renumbering is timed with. The layer has m entries, and 510 where m is 512, so that it is accepted.
struct Renumbering {
    m: usize,
    layer: Vec<u64>,
    table: Vec<u64>,
    r: usize,
    g: u64,
}

fn renumbering(c: usize, n: usize, m: usize) -> Renumbering {
    let (k, m) = (keys(n), m.min(510));
    let layer = spread(c, &k, m, 0);
    let quiet = (n / 2..n).find(|s| layer.iter().all(|e| e.pos != *s as u64)).unwrap();
    let r = scope::origins(n, &layer).iter().position(|o| *o == scope::Origin::Base(quiet)).unwrap();
    let table = (0..c as u64).flat_map(|j| k.iter().map(move |x| x + j)).collect();
    Renumbering { m, layer: padded(c, &layer), table, r, g: k[3 * n / 4] + 3 }
}

/// The times of every call, of the archive and of plain C. An edit is of a layer of m - 1 entries where m is 512, so that it is accepted,
/// and a renumbering of one of m - 2; an add is to a table of n - 1 rows; a combination is of two layers of m / 2 entries.
fn all(clock: &Clock, c: usize, n: usize, m: usize) -> Vec<(f64, f64)> {
    let k = &keys(n)[..];
    let x = &padded(c, &spread(c, k, m, 0))[..];
    let y = &padded(c, &spread(c, k, m, 1))[..];
    let rows = scope::rows_after(n, &spread(c, k, m, 0));
    let base: &[u64] = &(0..n as u64).collect::<Vec<_>>();
    let out = vec![0; n + m];
    let none: &[u64] = &[];

    let few = m.min(511);
    let l = &padded(c, &spread(c, k, few, 0))[..];
    let short = &k[..n - 1];
    let ls = &padded(c, &spread(c, short, few, 0))[..];
    let mut row = vec![1; c];
    row[0] = k[n / 2] + 3;
    let quiet = (n / 2..n).find(|s| spread(c, k, few, 0).iter().all(|e| e.pos != *s as u64)).unwrap();
    let r = CARD.row(c, n, few, l, quiet).1 as usize;

    let to = renumbering(c, n, m);

    let lower = spread(c, k, m / 2, 0);
    let between = scope::column(&lower, k, 0);
    let upper = spread(c, &between, m / 2, 2);
    let (lo, up) = (&padded(c, &lower)[..], &padded(c, &upper)[..]);
    let third = vec![0; 512 * (c + 2)];

    vec![
        clock.both(4, none, false, |w, _| w.fit(c, m, x, k)),
        clock.both(4, &out, false, |w, o| w.read(c, m, x, base, 1, o)),
        clock.both(16, &out, false, |w, o| (w.view(c, m, x, base, 1, o).0 / 2, 0)),
        clock.both(16, none, false, |w, _| (w.shift_at(c, n, m, x, n).0, 0)),
        clock.both(16, none, false, |w, _| w.row(c, n, m, x, n)),
        clock.both(16, none, false, |w, _| w.back(c, n, m, x, rows - 1)),
        clock.both(1, ls, true, |w, l| w.add(c, few, l, short, &row)),
        clock.both(1, l, true, |w, l| w.strike(c, few, l, k, r)),
        clock.both(1, l, true, |w, l| w.change(c, few, l, k, r, 1, 5)),
        clock.both(1, &to.layer, true, |w, l| w.renumber(c, n, to.m, l, &to.table, to.r, to.g)),
        clock.both(1, x, true, |w, x| w.move_past(c, k, m, x, m, y)),
        clock.both(2, &third, false, |w, o| w.combine(c, k, m / 2, lo, m / 2, up, o)),
    ]
}

const EDITS: [&str; 5] = ["add", "strike", "change entered", "change replaced", "renumber"];

/// The times of the edits on a layer that is in no cache, in its middle, otherwise as in `all`.
fn slow(clock: &Clock, c: usize, n: usize, m: usize) -> Vec<(f64, f64)> {
    let few = m.min(511);
    let k = &keys(n)[..];
    let layer = spread(c, k, few, 0);
    let l = &padded(c, &layer)[..];
    let short = &k[..n - 1];
    let ls = &padded(c, &spread(c, short, few, 0))[..];
    let mut row = vec![1; c];
    row[0] = k[n / 2] + 3;
    let quiet = (n / 2..n).find(|s| layer.iter().all(|e| e.pos != *s as u64)).unwrap();
    let r = CARD.row(c, n, few, l, quiet).1 as usize;
    let own = layer[few / 2..].iter().find(|e| e.is_change()).unwrap();
    let to = renumbering(c, n, m);
    let (there, j) = (CARD.row(c, n, few, l, own.pos as usize).1 as usize, own.kind as usize);
    vec![
        clock.slow(ls, |w, l| w.add(c, few, l, short, &row)),
        clock.slow(l, |w, l| w.strike(c, few, l, k, r)),
        clock.slow(l, |w, l| w.change(c, few, l, k, r, 1, 5)),
        clock.slow(l, |w, l| w.change(c, few, l, k, there, j, 5)),
        clock.slow(&to.layer, |w, l| w.renumber(c, n, to.m, l, &to.table, to.r, to.g)),
    ]
}

/// Read beside memcpy of the column and beside the merge by key.
fn beside(clock: &Clock, c: usize, n: usize, m: usize) -> (f64, f64, f64) {
    let k = keys(n);
    let layer = spread(c, &k, m, 0);
    let raw = padded(c, &layer);
    let base: Vec<u64> = (0..n as u64).collect();
    let pick = |kind: u64, j: usize| layer.iter().filter(|e| e.kind == kind).map(|e| e.vals[j]).collect::<Vec<u64>>();
    let (added, value, gone) = (pick(scope::ADD, 0), pick(scope::ADD, 1), pick(scope::STRIKE, 0));
    let (mut a, mut b, mut d) = (vec![0; n + m], vec![0; n], vec![0; n + m]);
    let t = clock.medians(
        4,
        &mut [
            &mut |timed| {
                if timed {
                    black_box(CARD.read(c, m, &raw, &base, 1, &mut a));
                }
            },
            &mut |timed| {
                if timed {
                    black_box(&mut b[..]).copy_from_slice(black_box(&base));
                }
            },
            &mut |timed| {
                if timed {
                    let (x, v, g) = (added.as_ptr(), value.as_ptr(), gone.as_ptr());
                    black_box(unsafe { plain_by_key(k.as_ptr(), base.as_ptr(), n, x, v, added.len(), g, gone.len(), d.as_mut_ptr()) });
                }
            },
        ],
    );
    (t[0], t[1], t[2])
}

fn mark(kept: bool) -> &'static str {
    if kept {
        ""
    } else {
        " **over**"
    }
}

fn main() {
    let repetitions = std::env::args().nth(1).and_then(|w| w.parse().ok()).unwrap_or(501);
    let clock = Clock::new(repetitions);
    println!("Medians of {repetitions}; a cell: nanoseconds of the archive / of plain C = ratio.\n");
    let sizes = [0, 16, 64, 512];
    for c in [3, 8] {
        println!("n = 4,096, c = {c}\n\n| call | bar | m = 0 | m = 16 | m = 64 | m = 512 |\n|---|---|---|---|---|---|");
        let at: Vec<_> = sizes.iter().map(|m| all(&clock, c, 4096, *m)).collect();
        let small = all(&clock, c, 512, 64);
        for (i, name) in CALLS.iter().enumerate() {
            let bar = if *name == "read" { 1.15 } else { 1.25 };
            print!("| {name} | {bar} ");
            for t in &at {
                let (mine, plain) = t[i];
                let ratio = mine / plain;
                print!("| {mine:.0} / {plain:.0} = {ratio:.2}{} ", mark(ratio <= bar));
            }
            println!("|");
        }
        println!("\nGrowth (8 is linear, and a tenth more is left to the caches): m = 64 to 512 at n = 4,096, n = 512 to 4,096 at m = 64\n");
        println!("| call | m × 8 | n × 8 |\n|---|---|---|");
        for (i, name) in CALLS.iter().enumerate() {
            let (by_m, by_n) = (at[3][i].0 / at[2][i].0, at[2][i].0 / small[i].0);
            println!("| {name} | {by_m:.2}{} | {by_n:.2}{} |", mark(by_m <= 8.8), mark(by_n <= 8.8));
        }
        println!();
    }
    println!("read beside memcpy of the column and the merge by key, n = 4,096 (bars: m = 0 at most 1.1 memcpy + 100 ns; by key / read at least 3 at m = 16, 64)\n");
    println!("| c | m | read | memcpy | by key | by key / read |\n|---|---|---|---|---|---|");
    for c in [3, 8] {
        for m in sizes {
            let (read, copy, by_key) = beside(&clock, c, 4096, m);
            let kept = match m {
                0 => read <= 1.1 * copy + 100.0,
                512 => true,
                _ => by_key >= 3.0 * read,
            };
            println!("| {c} | {m} | {read:.0} | {copy:.0} | {by_key:.0} | {:.2}{} |", by_key / read, mark(kept));
        }
    }
    println!("\nEdits with the layer in slow memory, n = 4,096: before each timed call every line of the slice is flushed from the caches (clflush), for both alike,");
    println!("so that the first load or store of a line goes to memory; the keys or the table, the row and the code stay cached.\n");
    println!("| call | c | m = 16 | m = 64 | m = 512 |\n|---|---|---|---|---|");
    for c in [3, 8] {
        let at: Vec<_> = sizes[1..].iter().map(|m| slow(&clock, c, 4096, *m)).collect();
        for (i, name) in EDITS.iter().enumerate() {
            print!("| {name} | {c} ");
            for t in &at {
                let (mine, plain) = t[i];
                print!("| {mine:.0} / {plain:.0} = {:.2} ", mine / plain);
            }
            println!("|");
        }
    }
}
