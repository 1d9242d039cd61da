//! Differential tests: every call of the archive, and of plain C, beside the scope by brute force, on valid, damaged and extreme input.

use crate::scope::{self, Entry, Origin, Pair};
use crate::calls::{Calls, CARD, PLAIN};
use crate::Rng;

pub const CALLS: [&str; 12] =
    ["fit", "read", "view", "shift", "row", "back", "add", "strike", "change", "renumber", "combine", "move"];

/// Which refusals each call can meet (combine's 10 is one that no input reaches).
const MEETS: [&[usize]; 12] = [
    &[1, 2, 3, 4],
    &[1, 2, 11],
    &[],
    &[1, 2],
    &[1, 2],
    &[1, 2, 5],
    &[1, 2, 3, 4, 7, 9, 10],
    &[1, 2, 3, 4, 5, 9],
    &[1, 2, 3, 4, 5, 6, 9],
    &[1, 2, 3, 4, 5, 7, 9],
    &[1, 2, 3, 4, 9],
    &[1, 2, 3, 4, 8, 10],
];

/// The kinds of renumbering that are to be met: accepted ones, and from `REFUSED` on refused ones.
pub const KINDS: [&str; 22] = [
    "own number",
    "added row",
    "base row",
    "base row, 1 change",
    "base row, 2 changes",
    "base row, 3 changes and more",
    "up",
    "down",
    "in place",
    "to the front",
    "to the end",
    "to a struck key",
    "over no base rows",
    "a longer table than c n",
    "room just enough",
    "512 entries left",
    "as strike and add leave it",
    "there and back",
    "short table alone",
    "7 before 9",
    "9, strike and add stopped between the two",
    "9 for more than 512 entries",
];
const REFUSED: usize = 18;

/// How often each answer number of each call was met.
#[derive(Default)]
pub struct Report {
    pub met: [[u64; 12]; 12],
    /// Renumberings by kind, and accepted ones by the number of columns.
    pub kinds: [u64; 22],
    pub columns: [u64; 9],
    pub both_orders: u64,
    pub combined: u64,
    /// Cells that both layers of an accepted move set to one value, and layers with entries that passed themselves.
    pub one_value: u64,
    pub past_itself: u64,
}

impl Report {
    pub fn calls(&self) -> u64 {
        self.met.iter().flatten().sum()
    }
    /// An answer that a call can give and never gave.
    pub fn missing(&self) -> Option<(&'static str, usize)> {
        if self.one_value == 0 || self.past_itself == 0 {
            return Some(("move past an equal change", 0));
        }
        if let Some(k) = self.kinds.iter().position(|k| *k == 0) {
            return Some((KINDS[k], 0));
        }
        if let Some(c) = (1..9).find(|c| self.columns[*c] == 0) {
            return Some(("renumber, by columns", c));
        }
        for (i, numbers) in MEETS.iter().enumerate() {
            if self.met[i][0] == 0 {
                return Some((CALLS[i], 0));
            }
            for &k in numbers.iter() {
                if self.met[i][k] == 0 {
                    return Some((CALLS[i], k));
                }
            }
        }
        None
    }
    pub fn print(&self) {
        println!("{:>8} {}", "call", (0..12).map(|k| format!("{k:>9}")).collect::<String>());
        for (i, name) in CALLS.iter().enumerate() {
            println!("{name:>8} {}", self.met[i].iter().map(|k| format!("{k:>9}")).collect::<String>());
        }
        println!("calls {}, both orders compared {}, combinations read back {}", self.calls(), self.both_orders, self.combined);
        println!("cells set to one value by both {}, layers past themselves {}", self.one_value, self.past_itself);
        let listed = |from: usize, to: usize| (from..to).map(|k| format!("{} {}", KINDS[k], self.kinds[k])).collect::<Vec<_>>().join("; ");
        println!("renumberings: {}", listed(0, REFUSED));
        println!("by columns, 1 to 8: {:?}", &self.columns[1..]);
        println!("refused ones: {}", listed(REFUSED, KINDS.len()));
    }
}

const GUARD: u64 = 0xDEAD_BEEF_0BAD_F00D;
const WORDS: usize = 6;

/// Numbers with guard words on both sides.
struct Guarded(Vec<u64>);

impl Guarded {
    fn new(inner: &[u64]) -> Self {
        let mut v = vec![GUARD; WORDS];
        v.extend_from_slice(inner);
        v.extend([GUARD; WORDS]);
        Guarded(v)
    }
    fn inner(&mut self) -> &mut [u64] {
        let end = self.0.len() - WORDS;
        &mut self.0[WORDS..end]
    }
    fn shared(&self) -> &[u64] {
        &self.0[WORDS..self.0.len() - WORDS]
    }
    fn whole(&self) -> bool {
        let end = self.0.len() - WORDS;
        self.0[..WORDS].iter().chain(&self.0[end..]).all(|x| *x == GUARD)
    }
}

/// A case: a table of c columns, two layers over it and one over the first's result, as slices with their entry counts.
#[derive(Clone, Debug)]
struct Case {
    c: usize,
    rows: Vec<Vec<u64>>,
    keys: Vec<u64>,
    m: usize,
    layer: Vec<u64>,
    my: usize,
    other: Vec<u64>,
    mw: usize,
    upper: Vec<u64>,
}

fn key(rng: &mut Rng, wide: usize) -> u64 {
    if rng.one_in(40) {
        u64::MAX - rng.below(2) as u64
    } else {
        rng.below(wide) as u64
    }
}

fn row(rng: &mut Rng, c: usize, k: u64) -> Vec<u64> {
    let mut v = vec![k];
    for _ in 1..c {
        v.push(if rng.one_in(10) { rng.next() } else { rng.below(4) as u64 });
    }
    v
}

/// A good layer over the keys, made by edits.
fn good_layer(rng: &mut Rng, c: usize, keys: &[u64], steps: usize, wide: usize) -> Vec<Entry> {
    let mut layer: Vec<Entry> = Vec::new();
    for _ in 0..steps {
        let shown = scope::column(&layer, keys, 0);
        let kind = rng.below(4);
        if kind < 2 {
            let k = key(rng, wide);
            if !shown.contains(&k) && shown.len() < 4096 && layer.len() < 512 {
                let r = row(rng, c, k);
                layer = scope::with_add(keys, &layer, &r);
            }
        } else if !shown.is_empty() && layer.len() < 505 {
            let r = rng.below(shown.len());
            if kind == 2 {
                layer = scope::with_strike(c, keys, &layer, r);
            } else if c > 1 {
                let j = 1 + rng.below(c - 1);
                let v = rng.below(5) as u64;
                layer = scope::with_change(c, keys, &layer, r, j, v);
            }
        }
    }
    layer
}

/// A long good layer in one pass: rows struck (unless it is to grow), changed and added along the table; `side` 0 keeps to the
/// even positions, 1 to the odd ones.
fn long_layer(rng: &mut Rng, c: usize, keys: &[u64], m: usize, grow: bool, side: usize) -> Vec<Entry> {
    let n = keys.len();
    let mut layer: Vec<Entry> = Vec::new();
    let first = |v: u64| {
        let mut w = vec![0; c];
        w[0] = v;
        w
    };
    let mut rows = n;
    let mut s = 0;
    while s < n && layer.len() < m {
        let what = rng.below(12);
        if side < 2 && s % 2 != side {
            s += 1;
            continue;
        }
        if what == 0 && !grow && rows > 0 {
            layer.push(Entry { pos: s as u64, kind: scope::STRIKE, vals: first(keys[s]) });
            rows -= 1;
        } else if what < 3 && c > 1 {
            layer.push(Entry { pos: s as u64, kind: 1 + rng.below(c - 1) as u64, vals: first(rng.next()) });
        } else if what < 5 && rows < 4096 && (s == 0 || keys[s - 1] + 1 < keys[s]) && keys[s] > 0 {
            layer.push(Entry { pos: s as u64, kind: scope::ADD, vals: row(rng, c, keys[s] - 1) });
            rows += 1;
        }
        s += 1 + rng.below(3);
    }
    layer
}

/// Changes of y whose cell x changes too mostly take x's value.
fn agree(rng: &mut Rng, x: &[Entry], y: &mut [Entry]) {
    for f in y.iter_mut().filter(|f| f.is_change()) {
        if let Some(e) = x.iter().find(|e| e.pos == f.pos && e.kind == f.kind) {
            if !rng.one_in(16) {
                f.vals = e.vals.clone();
            }
        }
    }
}

fn slice_of(rng: &mut Rng, c: usize, layer: &[Entry]) -> Vec<u64> {
    let mut raw = scope::numbers(layer);
    let spare = if rng.one_in(3) { 0 } else { rng.below(3 * (c + 2)) };
    raw.extend((0..spare).map(|_| rng.next() >> rng.below(64)));
    raw
}

fn small(rng: &mut Rng) -> Case {
    let c = if rng.one_in(8) { 5 + rng.below(4) } else { 1 + rng.below(4) };
    let wide = 3 + rng.below(12);
    let n = rng.below(8);
    let mut keys: Vec<u64> = (0..n).map(|_| key(rng, wide)).collect();
    keys.sort();
    keys.dedup();
    let rows: Vec<Vec<u64>> = keys.iter().map(|k| row(rng, c, *k)).collect();
    let (a, b, d) = (rng.below(9), rng.below(9), rng.below(9));
    let x = good_layer(rng, c, &keys, a, wide);
    let mut y = good_layer(rng, c, &keys, b, wide);
    if rng.one_in(2) {
        agree(rng, &x, &mut y);
    }
    let w = good_layer(rng, c, &scope::column(&x, &keys, 0), d, wide);
    Case {
        c,
        m: x.len(),
        my: y.len(),
        mw: w.len(),
        layer: slice_of(rng, c, &x),
        other: slice_of(rng, c, &y),
        upper: slice_of(rng, c, &w),
        rows,
        keys,
    }
}

/// A table at the limits, with layers of up to m entries: both where they may meet, or apart.
fn large(rng: &mut Rng, m: usize) -> Case {
    let c = [1, 2, 3, 8][rng.below(4)];
    let n = [4097, 4096, 4095, 4000, 600][rng.below(5)];
    let keys: Vec<u64> = (0..n as u64).map(|i| 10 * i + 5 + (i % 7)).collect();
    let rows: Vec<Vec<u64>> = keys.iter().map(|k| row(rng, c, *k)).collect();
    let grow = rng.one_in(2);
    let apart = rng.one_in(2);
    let x = long_layer(rng, c, &keys, m, grow, if apart { 0 } else { 2 });
    let mut y = long_layer(rng, c, &keys, m, grow, if apart { 1 } else { 2 });
    if !apart && rng.one_in(2) {
        // changes alone, mostly of x's cells
        y = x.iter().filter(|e| e.is_change()).cloned().collect();
    }
    agree(rng, &x, &mut y);
    let between = scope::column(&x, &keys, 0);
    let w = long_layer(rng, c, &between, m / 2, grow, 2);
    Case {
        c,
        m: x.len(),
        my: y.len(),
        mw: w.len(),
        layer: slice_of(rng, c, &x),
        other: slice_of(rng, c, &y),
        upper: slice_of(rng, c, &w),
        rows,
        keys,
    }
}

/// A good layer of m entries over keys that are four apart or more, in one pass: two rows added in front of a row at most, and the row
/// struck, or changed in any columns.
fn dense_layer(rng: &mut Rng, c: usize, keys: &[u64], m: usize) -> Vec<Entry> {
    let mut layer: Vec<Entry> = Vec::new();
    for (s, k) in keys.iter().enumerate() {
        let mut at = Vec::new();
        for i in 0..rng.below(3) as u64 {
            at.push((scope::ADD, row(rng, c, k - 3 + i)));
        }
        if rng.one_in(4) {
            at.push((scope::STRIKE, vec![*k]));
        } else if rng.one_in(2) {
            at.extend((1..c as u64).filter(|_| rng.one_in(2)).map(|j| (j, vec![77])).collect::<Vec<_>>());
        }
        for (kind, mut vals) in at {
            vals.resize(c, 0);
            layer.push(Entry { pos: s as u64, kind, vals });
        }
    }
    layer.truncate(m);
    layer
}

/// A table with a layer of m entries, in a slice that holds no more or four more.
fn dense(rng: &mut Rng, m: usize) -> Case {
    let c = 1 + rng.below(8);
    let n = if c == 1 { 600 } else { 450 };
    let keys: Vec<u64> = (0..n as u64).map(|i| 10 * i + 5 + (i % 7)).collect();
    let rows: Vec<Vec<u64>> = keys.iter().map(|k| row(rng, c, *k)).collect();
    let x = dense_layer(rng, c, &keys, m);
    let y = dense_layer(rng, c, &keys, 5);
    let w = dense_layer(rng, c, &[], 5);
    assert_eq!(x.len(), m);
    let mut layer = if rng.one_in(2) { scope::numbers(&x) } else { slice_of(rng, c, &x) };
    if rng.one_in(2) {
        layer.extend((0..4 * (c + 2)).map(|_| rng.next()));
    }
    let (other, upper) = (slice_of(rng, c, &y), slice_of(rng, c, &w));
    Case { c, m, my: y.len(), mw: w.len(), layer, other, upper, rows, keys }
}

/// Damages one thing of a case.
fn damage(rng: &mut Rng, case: &mut Case) {
    let odd = |rng: &mut Rng| match rng.below(6) {
        0 => rng.below(10) as u64,
        1 => scope::ADD,
        2 => scope::STRIKE,
        3 => rng.next(),
        4 => u64::MAX,
        _ => rng.below(3) as u64,
    };
    let number = |rng: &mut Rng, slice: &mut Vec<u64>| {
        if !slice.is_empty() {
            let i = rng.below(slice.len());
            slice[i] = odd(rng);
        }
    };
    let count = |rng: &mut Rng, m: usize| {
        [513, 512, usize::MAX, usize::MAX / 3, usize::MAX / 5, m + 1, m.saturating_sub(1)][rng.below(7)]
    };
    let shorter = |slice: &mut Vec<u64>| slice.truncate(slice.len().saturating_sub(1));
    match rng.below(14) {
        0 | 1 | 2 => number(rng, &mut case.layer),
        3 | 4 => number(rng, &mut case.other),
        5 | 6 => number(rng, &mut case.upper),
        7 => number(rng, &mut case.keys),
        8 => case.c = [0, 9, usize::MAX, usize::MAX - 1, case.c + 1][rng.below(5)],
        9 => case.m = count(rng, case.m),
        10 => case.my = count(rng, case.my),
        11 => case.mw = count(rng, case.mw),
        12 => shorter(&mut case.layer),
        _ => {
            shorter(&mut case.other);
            shorter(&mut case.upper);
        }
    }
}

/// One case being tried: the number of the call in `CALLS` and its further arguments stand beside every comparison.
struct Trial<'a> {
    case: &'a Case,
    report: &'a mut Report,
}

impl Trial<'_> {
    fn alike<T: PartialEq + std::fmt::Debug>(&self, who: &str, call: usize, args: &[usize], got: &T, want: &T) {
        let name = CALLS[call];
        assert!(got == want, "{name} {args:?}: {who} gives {got:?}, the scope {want:?}, on {:?}", self.case);
    }

    /// A call that only reads.
    fn reading<T: PartialEq + std::fmt::Debug>(&mut self, call: usize, args: &[usize], ask: impl Fn(&Calls) -> T, want: T) -> T {
        for who in [&PLAIN, &CARD] {
            self.alike(who.name, call, args, &ask(who), &want);
        }
        want
    }

    /// A call that writes one slice: each version on its own copy, and the guards looked at.
    fn writing(
        &mut self, call: usize, args: &[usize], slice: &[u64], ask: impl Fn(&Calls, &mut [u64]) -> Pair, scope: impl Fn(&mut [u64]) -> Pair,
    ) -> (Pair, Vec<u64>) {
        let mut after = slice.to_vec();
        let want = scope(&mut after);
        for who in [&PLAIN, &CARD] {
            let mut copy = Guarded::new(slice);
            let got = ask(who, copy.inner());
            self.alike(who.name, call, args, &got, &want);
            assert!(copy.whole(), "{} {args:?}: {} wrote past its slice, on {:?}", CALLS[call], who.name, self.case);
            self.alike(who.name, call, args, &copy.inner(), &&mut after[..]);
        }
        self.met(call, want.0);
        (want, after)
    }

    /// A renumbering of this kind was met.
    fn kind(&mut self, kind: usize, met: bool) {
        self.report.kinds[kind] += u64::from(met);
    }

    fn met(&mut self, call: usize, number: u64) {
        self.report.met[call][number as usize] += 1;
    }
}

/// A number up to `most` as a rule, now and then one past it or far past it.
fn about(rng: &mut Rng, most: usize) -> usize {
    match rng.below(12) {
        0 => most + 1,
        1 => usize::MAX - rng.below(2),
        _ => rng.below(most + 1),
    }
}

/// All calls on one case.
fn try_all(rng: &mut Rng, case: &Case, report: &mut Report) {
    let lent = [Guarded::new(&case.layer), Guarded::new(&case.keys), Guarded::new(&case.other), Guarded::new(&case.upper)];
    let [layer, keys, other, upper] = [0, 1, 2, 3].map(|i| lent[i].shared());
    let (c, m, n) = (case.c, case.m, keys.len());
    let mut t = Trial { case, report };

    let fit = t.reading(0, &[], |k| k.fit(c, m, layer, keys), scope::kw_fit(c, m, layer, keys));
    t.met(0, fit.0);

    let j = if rng.one_in(12) { c.wrapping_add(rng.below(2)) } else { rng.below(c.clamp(1, 8)) };
    let column: Vec<u64> = if j == 0 { keys.to_vec() } else { (0..n).map(|i| rng.below(50) as u64 + i as u64).collect() };
    let guarded = Guarded::new(&column);
    let base = guarded.shared();
    let likely = n + m.min(512) + 2;
    let room = if rng.one_in(3) { rng.below(likely + 1) } else { likely };
    let buffer: Vec<u64> = (0..room).map(|_| rng.next()).collect();
    let (read, shown) = t.writing(1, &[j, room], &buffer, |k, o| k.read(c, m, layer, base, j, o), |o| scope::kw_read(c, m, layer, base, j, o));
    t.reading(2, &[j, room], |k| k.view(c, m, layer, base, j, &shown), scope::kw_view(c, m, layer, base, j, &shown));
    t.met(2, 0);

    let rows = if rng.one_in(20) { [4096, 4097, usize::MAX][rng.below(3)] } else { n };
    let s = about(rng, rows.min(4097));
    let shift = t.reading(3, &[rows, s], |k| k.shift_at(c, rows, m, layer, s), scope::kw_shift_at(c, rows, m, layer, s));
    t.met(3, shift.0);
    let at = t.reading(4, &[rows, s], |k| k.row(c, rows, m, layer, s), scope::kw_row(c, rows, m, layer, s));
    t.met(4, at.0);
    let r = about(rng, if read.0 == 0 { (read.1 as usize).saturating_sub(1) } else { likely });
    let back = t.reading(5, &[rows, r], |k| k.back(c, rows, m, layer, r), scope::kw_back(c, rows, m, layer, r));
    t.met(5, back.0);

    let k = if n > 0 && rng.one_in(3) { keys[rng.below(n)] } else { key(rng, 40 + 10 * n) };
    let width = if rng.one_in(15) { c.wrapping_add(1).min(12) } else { c.min(12) };
    let mut new = row(rng, width.max(1), k);
    new.truncate(width);
    t.writing(6, &[k as usize, width], layer, |k, l| k.add(c, m, l, keys, &new), |l| scope::kw_add(c, m, l, keys, &new));
    t.writing(7, &[r], layer, |k, l| k.strike(c, m, l, keys, r), |l| scope::kw_strike(c, m, l, keys, r));
    let v = rng.below(4) as u64;
    t.writing(8, &[r, j], layer, |k, l| k.change(c, m, l, keys, r, j, v), |l| scope::kw_change(c, m, l, keys, r, j, v));
    renumber(rng, &mut t, layer, keys, fit.0 == 0);

    let whole = (m.min(512) + case.mw.min(512) + 1).min(513) * c.min(8).wrapping_add(2);
    let third: Vec<u64> = (0..if rng.one_in(3) { rng.below(whole + 1) } else { whole }).map(|_| rng.next()).collect();
    let (combine, joined) = t.writing(
        10,
        &[third.len()],
        &third,
        |k, o| k.combine(c, keys, m, layer, case.mw, upper, o),
        |o| scope::kw_combine(c, keys, m, layer, case.mw, upper, o),
    );
    let (moved, past) = t.writing(
        11,
        &[],
        layer,
        |k, l| k.move_past(c, keys, m, l, case.my, other),
        |l| scope::kw_move(c, keys, m, l, case.my, other),
    );

    let table = case.rows.len() == n && case.rows.iter().all(|r| r.len() == c);
    if table && combine.0 == 0 {
        t.report.combined += 1;
        let between = read_table(c, m, layer, &case.rows);
        let twice = read_table(c, case.mw, upper, &between);
        let once = read_table(c, combine.1 as usize, &joined, &case.rows);
        t.alike("read through the combination", 10, &[], &once, &twice);
    }
    if table && moved.0 == 0 {
        let mut theirs = other.to_vec();
        let (number, _) = CARD.move_past(c, keys, case.my, &mut theirs, m, layer);
        t.alike("moved the other way", 11, &[], &number, &0);
        t.report.both_orders += 1;
        let first = read_table(c, m, &past, &read_table(c, case.my, other, &case.rows));
        let second = read_table(c, case.my, &theirs, &read_table(c, m, layer, &case.rows));
        t.alike("the one order", 11, &[], &first, &second);
        let done = scope::table(&scope::entries(c, case.my, other), &case.rows);
        t.alike("read after the move", 11, &[], &first, &scope::redone(keys, &scope::entries(c, m, layer), &done));
        // combined into theirs: a cell that both set to one value has one entry
        let mut master = vec![0; 512 * (c + 2)];
        let (number, k) = CARD.combine(c, keys, case.my, other, m, &past, &mut master);
        if number == 0 {
            t.alike("read through theirs and mine", 10, &[], &read_table(c, k as usize, &master, &case.rows), &first);
            let all = scope::entries(c, k as usize, &master);
            let theirs = scope::entries(c, case.my, other);
            for e in scope::entries(c, m, layer).iter().filter(|e| e.is_change() && theirs.contains(e)) {
                t.report.one_value += 1;
                let kept: Vec<&Entry> = all.iter().filter(|f| f.pos == e.pos && f.kind == e.kind).collect();
                t.alike("one entry for the cell", 10, &[], &kept, &vec![e]);
            }
        }
    }
    // X past itself: refused at its first add or strike, else accepted and as it was
    if fit.0 == 0 {
        let mine = scope::entries(c, m, layer);
        let want = match mine.iter().position(|e| !e.is_change()) {
            Some(p) => (8, p as u64),
            None => (0, m as u64),
        };
        let mut copy = layer.to_vec();
        let got = CARD.move_past(c, keys, m, &mut copy, m, layer);
        t.alike("past itself", 11, &[], &got, &want);
        t.alike("left by itself", 11, &[], &&copy[..], &layer);
        t.report.past_itself += u64::from(got.0 == 0 && m > 0);
    }
    for (slice, was) in lent.iter().zip([&case.layer, &case.keys, &case.other, &case.upper]).chain([(&guarded, &column)]) {
        assert!(slice.whole() && slice.shared() == &was[..], "a slice lent for reading has changed, on {case:?}");
    }
}

/// A row number and a group number to give it: mostly of a fitting layer's rows, of each kind, and numbers near those that are shown.
fn choice(rng: &mut Rng, keys: &[u64], mine: &[Entry]) -> (usize, u64) {
    let origins = scope::origins(keys.len(), mine);
    let shown = scope::column(mine, keys, 0);
    let added = |o: &Origin| matches!(o, Origin::Added(_));
    let changed = |o: &Origin| mine.iter().any(|e| e.is_change() && *o == Origin::Base(e.pos as usize));
    let of = |test: &dyn Fn(&Origin) -> bool| (0..origins.len()).filter(|r| test(&origins[*r])).collect::<Vec<_>>();
    let some = match rng.below(3) {
        0 => of(&added),
        1 => of(&changed),
        _ => Vec::new(),
    };
    let r = if some.is_empty() { about(rng, origins.len().saturating_sub(1)) } else { some[rng.below(some.len())] };
    let near = if shown.is_empty() { rng.below(30) as u64 } else { shown[rng.below(shown.len())] };
    let struck: Vec<u64> = mine.iter().filter(|e| e.kind == scope::STRIKE).map(|e| e.vals[0]).collect();
    let ends = [shown.first().copied().unwrap_or(1), shown.last().copied().unwrap_or(1)];
    let g = match rng.below(9) {
        0 => shown.get(r).copied().unwrap_or(near),
        1 => near,
        2 | 3 => near.wrapping_add(rng.below(5) as u64).wrapping_sub(2),
        4 => ends[0].wrapping_sub(1 + rng.below(2) as u64),
        5 => ends[1].wrapping_add(1 + rng.below(2) as u64),
        6 if !struck.is_empty() => struck[rng.below(struck.len())],
        7 => [0, u64::MAX][rng.below(2)],
        _ => key(rng, 40 + 10 * keys.len()),
    };
    (r, g)
}

/// A renumbering, and where the table is lent whole what else is said of one, of the archive alone.
fn renumber(rng: &mut Rng, t: &mut Trial, layer: &[u64], keys: &[u64], fits: bool) {
    let (case, c, m) = (t.case, t.case.c, t.case.m);
    let mine = if fits { scope::entries(c, m, layer) } else { Vec::new() };
    let (r, g) = if fits { choice(rng, keys, &mine) } else { (about(rng, keys.len() + 5), key(rng, 40 + 10 * keys.len())) };
    let mut whole = keys.to_vec();
    if case.rows.len() == keys.len() && case.rows.iter().all(|row| row.len() == c) {
        whole = scope::whole_of(c, &case.rows);
    } else {
        whole.extend((keys.len()..c.min(9) * keys.len()).map(|_| rng.below(50) as u64));
    }
    let exact = whole.len();
    match rng.below(10) {
        0 => whole.truncate(exact.saturating_sub(1 + rng.below(2))),
        1 | 2 => whole.extend((0..1 + rng.below(20)).map(|_| rng.next())),
        _ => (),
    }
    let n = if rng.one_in(30) { [4097, usize::MAX, keys.len() + 1, keys.len().saturating_sub(1)][rng.below(4)] } else { keys.len() };
    let guarded = Guarded::new(&whole);
    let table = guarded.shared();
    let args = [n, table.len(), r, g as usize];
    let (answer, after) = t.writing(
        9,
        &args,
        layer,
        |k, l| k.renumber(c, n, m, l, table, r, g),
        |l| scope::kw_renumber(c, n, m, l, table, r, g),
    );
    assert!(guarded.whole() && table == whole, "the table lent to a renumbering has changed, on {case:?}");
    if !fits || n != keys.len() {
        return;
    }
    let shown = scope::column(&mine, keys, 0);
    if table.len() < c * n {
        t.kind(18, true);
        return;
    }
    if r >= shown.len() {
        return;
    }
    again(t, layer, table, r, g, &mine, answer, &after);

    // which kind it was
    let own = shown[r];
    let changes = match scope::origins(n, &mine)[r] {
        Origin::Base(s) => Some(mine.iter().filter(|e| e.is_change() && e.pos == s as u64).count()),
        Origin::Added(_) => None,
    };
    let room = 512.min(layer.len() / (c + 2));
    let left = changes.map_or(m, |k| m + 2 - k);
    if answer.0 == 0 {
        t.report.columns[c] += 1;
        t.kind(0, g == own);
        t.kind(12, n == 0);
        t.kind(13, table.len() > c * n);
    }
    if answer.0 == 0 && g != own {
        let new: Vec<u64> = shown.iter().enumerate().map(|(i, k)| if i == r { g } else { *k }).collect();
        t.alike("the number of entries left", 9, &args, &(answer.1 as usize), &left);
        t.kind(1, changes.is_none());
        for k in 0..3 {
            t.kind(2 + k, changes == Some(k));
        }
        t.kind(5, changes.is_some_and(|k| k > 2));
        t.kind(6, g > own);
        t.kind(7, g < own);
        t.kind(8, new.windows(2).all(|w| w[0] < w[1]));
        t.kind(9, shown.iter().all(|k| g < *k));
        t.kind(10, shown.iter().all(|k| g > *k));
        t.kind(11, mine.iter().any(|e| e.kind == scope::STRIKE && e.vals[0] == g));
        t.kind(14, left == room);
        t.kind(15, left == 512);
    }
    t.kind(19, answer.0 == 7 && left > room);
    t.kind(20, answer.0 == 9 && left == room + 1);
    t.kind(21, answer.0 == 9 && left * (c + 2) <= layer.len());
}

/// A renumbering of a shown row beside a strike and an add of the row that was read, and there and back again.
fn again(t: &mut Trial, layer: &[u64], table: &[u64], r: usize, g: u64, mine: &[Entry], answer: Pair, after: &[u64]) {
    let (case, c, m, n) = (t.case, t.case.c, t.case.m, t.case.keys.len());
    let (args, keys) = ([r, g as usize], &table[..n]);
    let rows = scope::rows_of(c, n, table);
    let was = read_table(c, m, layer, &rows);
    let mut row = was[r].clone();
    let own = std::mem::replace(&mut row[0], g);
    if own == g {
        t.alike("own number", 9, &args, &answer, &(0, m as u64));
        t.alike("own number", 9, &args, &after, &layer);
        return;
    }
    let mut twice = layer.to_vec();
    let strike = CARD.strike(c, m, &mut twice, keys, r);
    if strike.0 == 0 {
        let add = CARD.add(c, strike.1 as usize, &mut twice, keys, &row);
        t.alike("beside strike and add", 9, &args, &answer, &add);
        if add.0 == 0 {
            t.alike("the slice beside strike and add", 9, &args, &after, &&twice[..]);
            t.kind(16, true);
        }
    } else {
        let other = was.iter().enumerate().any(|(i, row)| i != r && row[0] == g);
        t.alike("where the strike finds no room", 9, &args, &answer, &(if other { 7 } else { 9 }, 0));
    }
    if answer.0 != 0 {
        return;
    }
    // the table, and back: an added row leaves the layer as it was, a base row a strike and an add of its own number
    let k = answer.1 as usize;
    let now = read_table(c, k, after, &rows);
    let mut want: Vec<Vec<u64>> = was.iter().enumerate().filter(|(i, _)| *i != r).map(|(_, row)| row.clone()).collect();
    want.push(row);
    want.sort();
    t.alike("the table", 9, &args, &now, &want);
    let there = now.iter().position(|row| row[0] == g).unwrap();
    let mut back = after.to_vec();
    let home = CARD.renumber(c, n, k, &mut back, table, there, own);
    t.alike("back again", 9, &args, &home, &(0, k as u64));
    t.alike("the table once back", 9, &args, &read_table(c, k, &back, &rows), &was);
    let s = match scope::origins(n, mine)[r] {
        Origin::Added(_) => {
            t.alike("an added row's layer once back", 9, &args, &&back[..], &layer);
            t.kind(17, true);
            return;
        }
        Origin::Base(s) => s as u64,
    };
    let stays = |e: &&Entry| !(e.is_change() && e.pos == s);
    let mut entries: Vec<Entry> = mine.iter().filter(stays).cloned().collect();
    let at = entries.iter().position(|e| e.pos > s).unwrap_or(entries.len());
    let mut first = vec![0; c];
    first[0] = own;
    entries.insert(at, Entry { pos: s, kind: scope::STRIKE, vals: first });
    entries.insert(at, Entry { pos: s, kind: scope::ADD, vals: was[r].clone() });
    t.alike("a base row's layer once back", 9, &args, &scope::entries(c, k, &back), &entries);
    t.kind(17, true);
    assert!(back[k * (c + 2)..] == after[k * (c + 2)..], "numbers behind the layer have changed on the way back, on {case:?}");
}

/// A table read through a layer by the archive, column by column.
fn read_table(c: usize, m: usize, layer: &[u64], rows: &[Vec<u64>]) -> Vec<Vec<u64>> {
    let columns: Vec<Vec<u64>> = (0..c)
        .map(|j| {
            let base: Vec<u64> = rows.iter().map(|r| r[j]).collect();
            let mut out = vec![0; rows.len() + m];
            let (number, count) = CARD.read(c, m, layer, &base, j, &mut out);
            assert_eq!(number, 0);
            out.truncate(count as usize);
            out
        })
        .collect();
    (0..columns[0].len()).map(|i| (0..c).map(|j| columns[j][i]).collect()).collect()
}

/// A run: small cases until so many calls are made, a large case now and then.
pub fn run(seed: u64, calls: u64) -> Report {
    let mut rng = Rng::new(seed);
    let mut report = Report::default();
    let mut round = 0u64;
    while report.calls() < calls {
        round += 1;
        let mut case = match round % 4000 {
            0 => large(&mut rng, 512),
            2000 => large(&mut rng, 511),
            k if k % 400 == 100 => dense(&mut rng, [512, 511, 512, 510][(k / 400 % 4) as usize]),
            k if k % 100 == 50 => large(&mut rng, (k / 100 % 10) as usize),
            _ => small(&mut rng),
        };
        let whole = case.keys.clone();
        if rng.one_in(3) {
            damage(&mut rng, &mut case);
        }
        if case.keys != whole {
            case.rows.clear(); // no table: the keys are not those of the rows
        }
        try_all(&mut rng, &case, &mut report);
    }
    report
}
