//! The scope by brute force: filters, counts and sorts over vectors, no cursor. Written from docs/SCOPE.md and docs/REQUESTS.md alone.

pub const ADD: u64 = 65_535;
pub const STRIKE: u64 = 65_534;

/// One entry: position, kind, c values.
#[derive(Clone, Debug, PartialEq, Eq)]
pub struct Entry {
    pub pos: u64,
    pub kind: u64,
    pub vals: Vec<u64>,
}

impl Entry {
    pub fn is_change(&self) -> bool {
        self.kind != ADD && self.kind != STRIKE
    }
    fn key(&self) -> u64 {
        self.vals[0]
    }
}

/// An answer as the two numbers that C gets.
pub type Pair = (u64, u64);

pub fn entries(c: usize, m: usize, raw: &[u64]) -> Vec<Entry> {
    (0..m)
        .map(|i| {
            let e = &raw[i * (c + 2)..(i + 1) * (c + 2)];
            Entry { pos: e[0], kind: e[1], vals: e[2..].to_vec() }
        })
        .collect()
}

pub fn numbers(layer: &[Entry]) -> Vec<u64> {
    layer.iter().flat_map(|e| [e.pos, e.kind].into_iter().chain(e.vals.iter().copied()).collect::<Vec<_>>()).collect()
}

fn arguments(c: usize, n: usize, m: usize, len: usize) -> bool {
    (1..=8).contains(&c) && n <= 4096 && m <= 512 && (m as u128) * (c as u128 + 2) <= len as u128
}

fn alone(c: usize, n: usize, e: &Entry) -> bool {
    let known = e.kind == ADD || e.kind == STRIKE || (1 <= e.kind && e.kind < c as u64);
    let place = if e.kind == ADD { e.pos <= n as u64 } else { e.pos < n as u64 };
    let zeros = e.kind == ADD || e.vals[1..].iter().all(|v| *v == 0);
    known && place && zeros
}

fn together(d: &Entry, e: &Entry) -> bool {
    if d.pos > e.pos {
        return false;
    }
    if d.pos < e.pos {
        return true;
    }
    d.kind == ADD || (d.is_change() && e.is_change() && d.kind < e.kind)
}

fn count(layer: &[Entry], test: impl Fn(&Entry) -> bool) -> usize {
    layer.iter().filter(|e| test(e)).count()
}

pub fn rows_after(n: usize, layer: &[Entry]) -> usize {
    n + count(layer, |e| e.kind == ADD) - count(layer, |e| e.kind == STRIKE)
}

/// Refusal 2, if any: its place.
pub(crate) fn form(c: usize, n: usize, layer: &[Entry]) -> Option<usize> {
    for i in 0..layer.len() {
        if !alone(c, n, &layer[i]) || (0..i).any(|h| !together(&layer[h], &layer[i])) {
            return Some(i);
        }
    }
    if n + count(layer, |e| e.kind == ADD) > 4096 + count(layer, |e| e.kind == STRIKE) {
        return Some(layer.len());
    }
    None
}

fn ascending(keys: &[u64]) -> bool {
    (1..keys.len()).all(|i| keys[i - 1] < keys[i])
}

/// Refusal 4, if any: its place.
fn fit(keys: &[u64], layer: &[Entry]) -> Option<usize> {
    let n = keys.len();
    (0..layer.len()).find(|&i| {
        let e = &layer[i];
        let s = e.pos as usize;
        if e.kind == STRIKE {
            return keys[s] != e.key();
        }
        if e.kind != ADD {
            return false;
        }
        let k = e.key();
        let above = s == 0 || keys[s - 1] < k;
        let struck = layer.iter().any(|f| f.kind == STRIKE && f.pos == e.pos);
        let under = s >= n || k < keys[s] || (k == keys[s] && struck);
        let rising = layer[..i].iter().all(|f| f.kind != ADD || f.pos != e.pos || f.key() < k);
        !(above && under && rising)
    })
}

/// What a shown row is: base row s, or entry i.
#[derive(Clone, Copy, Debug, PartialEq, Eq)]
pub enum Origin {
    Base(usize),
    Added(usize),
}

pub fn origins(n: usize, layer: &[Entry]) -> Vec<Origin> {
    let mut out = Vec::new();
    for s in 0..=n {
        for (i, e) in layer.iter().enumerate() {
            if e.kind == ADD && e.pos == s as u64 {
                out.push(Origin::Added(i));
            }
        }
        if s < n && !layer.iter().any(|e| e.kind == STRIKE && e.pos == s as u64) {
            out.push(Origin::Base(s));
        }
    }
    out
}

pub fn column(layer: &[Entry], base: &[u64], j: usize) -> Vec<u64> {
    origins(base.len(), layer)
        .into_iter()
        .map(|o| match o {
            Origin::Added(i) => layer[i].vals[j],
            Origin::Base(s) => {
                let own = layer.iter().find(|e| e.kind == j as u64 && e.is_change() && e.pos == s as u64);
                own.map_or(base[s], |e| e.vals[0])
            }
        })
        .collect()
}

/// A table as its rows, read through a layer.
pub fn table(layer: &[Entry], rows: &[Vec<u64>]) -> Vec<Vec<u64>> {
    origins(rows.len(), layer)
        .into_iter()
        .map(|o| match o {
            Origin::Added(i) => layer[i].vals.clone(),
            Origin::Base(s) => {
                let mut row = rows[s].clone();
                for e in layer.iter().filter(|e| e.is_change() && e.pos == s as u64) {
                    row[e.kind as usize] = e.vals[0];
                }
                row
            }
        })
        .collect()
}

fn room(c: usize, len: usize) -> usize {
    512.min(len / (c + 2))
}

/// The order of a layer, as a sort key.
fn rank(e: &Entry) -> (u64, u64, u64) {
    match e.kind {
        ADD => (e.pos, 0, e.key()),
        STRIKE => (e.pos, 1, 0),
        j => (e.pos, 1, j),
    }
}

fn sorted(mut layer: Vec<Entry>) -> Vec<Entry> {
    layer.sort_by_key(rank);
    layer
}

fn padded(c: usize, first: u64) -> Vec<u64> {
    let mut v = vec![0; c];
    v[0] = first;
    v
}

pub fn with_add(keys: &[u64], layer: &[Entry], row: &[u64]) -> Vec<Entry> {
    let pos = keys.iter().filter(|k| **k < row[0]).count() as u64;
    let mut out = layer.to_vec();
    out.push(Entry { pos, kind: ADD, vals: row.to_vec() });
    sorted(out)
}

pub fn with_strike(c: usize, keys: &[u64], layer: &[Entry], r: usize) -> Vec<Entry> {
    match origins(keys.len(), layer)[r] {
        Origin::Added(i) => layer.iter().enumerate().filter(|(h, _)| *h != i).map(|(_, e)| e.clone()).collect(),
        Origin::Base(s) => {
            let mut out: Vec<Entry> = layer.iter().filter(|e| !(e.is_change() && e.pos == s as u64)).cloned().collect();
            out.push(Entry { pos: s as u64, kind: STRIKE, vals: padded(c, keys[s]) });
            sorted(out)
        }
    }
}

pub fn with_change(c: usize, keys: &[u64], layer: &[Entry], r: usize, j: usize, v: u64) -> Vec<Entry> {
    match origins(keys.len(), layer)[r] {
        Origin::Added(i) => {
            let mut out = layer.to_vec();
            out[i].vals[j] = v;
            out
        }
        Origin::Base(s) => {
            let mut out: Vec<Entry> =
                layer.iter().filter(|e| !(e.is_change() && e.pos == s as u64 && e.kind == j as u64)).cloned().collect();
            out.push(Entry { pos: s as u64, kind: j as u64, vals: padded(c, v) });
            sorted(out)
        }
    }
}

/// Row number r of the table read through the layer gets the number g: as it is where that is its own, else struck, and added with g.
pub fn with_number(c: usize, rows: &[Vec<u64>], layer: &[Entry], r: usize, g: u64) -> Vec<Entry> {
    let keys: Vec<u64> = rows.iter().map(|row| row[0]).collect();
    let mut row = table(layer, rows)[r].clone();
    if row[0] == g {
        return layer.to_vec();
    }
    row[0] = g;
    with_add(&keys, &with_strike(c, &keys, layer, r), &row)
}

/// A layer's slice after an edit that left `new` where m entries stood.
fn edited(c: usize, m: usize, raw: &mut [u64], new: &[Entry]) {
    let flat = numbers(new);
    raw[..flat.len()].copy_from_slice(&flat);
    for x in &mut raw[flat.len()..(m * (c + 2)).max(flat.len())] {
        *x = 0;
    }
}

fn check(c: usize, n: usize, m: usize, raw: &[u64]) -> Result<Vec<Entry>, Pair> {
    if !arguments(c, n, m, raw.len()) {
        return Err((1, 0));
    }
    let layer = entries(c, m, raw);
    match form(c, n, &layer) {
        Some(p) => Err((2, p as u64)),
        None => Ok(layer),
    }
}

fn check_fit(c: usize, m: usize, raw: &[u64], keys: &[u64]) -> Result<Vec<Entry>, Pair> {
    let layer = check(c, keys.len(), m, raw)?;
    if !ascending(keys) {
        return Err((3, 0));
    }
    match fit(keys, &layer) {
        Some(p) => Err((4, p as u64)),
        None => Ok(layer),
    }
}

fn answer(r: Result<Pair, Pair>) -> Pair {
    match r {
        Ok(p) => p,
        Err(p) => p,
    }
}

pub fn kw_fit(c: usize, m: usize, raw: &[u64], keys: &[u64]) -> Pair {
    answer(check_fit(c, m, raw, keys).map(|_| (0, 0)))
}

pub fn kw_read(c: usize, m: usize, raw: &[u64], base: &[u64], j: usize, out: &mut [u64]) -> Pair {
    if !arguments(c, base.len(), m, raw.len()) || j >= c {
        return (1, 0);
    }
    answer((|| {
        let layer = check(c, base.len(), m, raw)?;
        let shown = column(&layer, base, j);
        if out.len() < shown.len() {
            return Err((11, 0));
        }
        out[..shown.len()].copy_from_slice(&shown);
        Ok((0, shown.len() as u64))
    })())
}

/// Number 0: a part of the base column, 1: the front of the buffer; value: its length.
pub fn kw_view(c: usize, m: usize, raw: &[u64], base: &[u64], j: usize, out: &[u64]) -> Pair {
    let mut copy = out.to_vec();
    let (number, rows) = kw_read(c, m, raw, base, j, &mut copy);
    if number != 0 {
        return (0, 0);
    }
    let touched = entries(c, m, raw).iter().any(|e| e.kind == ADD || e.kind == STRIKE || e.kind == j as u64);
    if touched {
        (1, rows)
    } else {
        (0, base.len() as u64)
    }
}

pub fn shift(layer: &[Entry], s: usize) -> i64 {
    let adds = count(layer, |e| e.kind == ADD && e.pos <= s as u64) as i64;
    adds - count(layer, |e| e.kind == STRIKE && e.pos < s as u64) as i64
}

pub fn kw_shift_at(c: usize, n: usize, m: usize, raw: &[u64], s: usize) -> (u64, i64) {
    if !arguments(c, n, m, raw.len()) || s > n {
        return (1, 0);
    }
    match check(c, n, m, raw) {
        Ok(layer) => (0, shift(&layer, s)),
        Err((number, place)) => (number, place as i64),
    }
}

pub fn kw_row(c: usize, n: usize, m: usize, raw: &[u64], s: usize) -> Pair {
    let (number, value) = kw_shift_at(c, n, m, raw, s);
    if number != 0 {
        return (number, value as u64);
    }
    (0, (s as i64 + value) as u64)
}

pub fn kw_back(c: usize, n: usize, m: usize, raw: &[u64], r: usize) -> Pair {
    answer((|| {
        let layer = check(c, n, m, raw)?;
        match origins(n, &layer).get(r) {
            None => Err((5, 0)),
            Some(Origin::Base(s)) => Ok((0, *s as u64)),
            Some(Origin::Added(i)) => Ok((0, 65_536 + *i as u64)),
        }
    })())
}

fn store(c: usize, m: usize, raw: &mut [u64], new: Vec<Entry>, n: usize, total: bool) -> Result<Pair, Pair> {
    if new.len() > room(c, raw.len()) {
        return Err((9, 0));
    }
    if total && rows_after(n, &new) > 4096 {
        return Err((10, 0));
    }
    edited(c, m, raw, &new);
    Ok((0, new.len() as u64))
}

pub fn kw_add(c: usize, m: usize, raw: &mut [u64], keys: &[u64], row: &[u64]) -> Pair {
    if !arguments(c, keys.len(), m, raw.len()) || row.len() != c {
        return (1, 0);
    }
    answer((|| {
        let layer = check_fit(c, m, raw, keys)?;
        if column(&layer, keys, 0).contains(&row[0]) {
            return Err((7, 0));
        }
        store(c, m, raw, with_add(keys, &layer, row), keys.len(), true)
    })())
}

pub fn kw_strike(c: usize, m: usize, raw: &mut [u64], keys: &[u64], r: usize) -> Pair {
    answer((|| {
        let layer = check_fit(c, m, raw, keys)?;
        if r >= rows_after(keys.len(), &layer) {
            return Err((5, 0));
        }
        store(c, m, raw, with_strike(c, keys, &layer, r), keys.len(), false)
    })())
}

pub fn kw_change(c: usize, m: usize, raw: &mut [u64], keys: &[u64], r: usize, j: usize, v: u64) -> Pair {
    if !arguments(c, keys.len(), m, raw.len()) || j >= c {
        return (1, 0);
    }
    answer((|| {
        let layer = check_fit(c, m, raw, keys)?;
        if r >= rows_after(keys.len(), &layer) {
            return Err((5, 0));
        }
        if j == 0 {
            return Err((6, 0));
        }
        store(c, m, raw, with_change(c, keys, &layer, r, j, v), keys.len(), false)
    })())
}

/// The rows of a whole table, its c columns of n rows end to end.
pub fn rows_of(c: usize, n: usize, whole: &[u64]) -> Vec<Vec<u64>> {
    (0..n).map(|s| (0..c).map(|j| whole[j * n + s]).collect()).collect()
}

/// A whole table, its columns end to end.
pub fn whole_of(c: usize, rows: &[Vec<u64>]) -> Vec<u64> {
    (0..c).flat_map(|j| rows.iter().map(move |row| row[j])).collect()
}

pub fn kw_renumber(c: usize, n: usize, m: usize, raw: &mut [u64], whole: &[u64], r: usize, g: u64) -> Pair {
    if !arguments(c, n, m, raw.len()) || whole.len() < c * n {
        return (1, 0);
    }
    answer((|| {
        let rows = rows_of(c, n, whole);
        let layer = check_fit(c, m, raw, &whole[..n])?;
        let shown = column(&layer, &whole[..n], 0);
        if r >= shown.len() {
            return Err((5, 0));
        }
        if (0..shown.len()).any(|i| i != r && shown[i] == g) {
            return Err((7, 0));
        }
        store(c, m, raw, with_number(c, &rows, &layer, r, g), n, false)
    })())
}

/// R with W's strikes, then changes, then adds redone by key as edits.
pub fn combined(c: usize, keys: &[u64], lower: &[Entry], upper: &[Entry]) -> Vec<Entry> {
    let between = column(lower, keys, 0);
    let mut out = lower.to_vec();
    let row_of = |layer: &[Entry], k: u64| column(layer, keys, 0).iter().position(|x| *x == k).unwrap();
    for e in upper.iter().filter(|e| e.kind == STRIKE) {
        let r = row_of(&out, e.key());
        out = with_strike(c, keys, &out, r);
    }
    for e in upper.iter().filter(|e| e.is_change()) {
        let r = row_of(&out, between[e.pos as usize]);
        out = with_change(c, keys, &out, r, e.kind as usize, e.vals[0]);
    }
    for e in upper.iter().filter(|e| e.kind == ADD) {
        out = with_add(keys, &out, &e.vals);
    }
    out
}

fn thousand(r: Result<Vec<Entry>, Pair>) -> Result<Vec<Entry>, Pair> {
    r.map_err(|(number, place)| (number, place + 1000))
}

pub fn kw_combine(c: usize, keys: &[u64], mr: usize, r: &[u64], mw: usize, w: &[u64], out: &mut [u64]) -> Pair {
    let n = keys.len();
    if !arguments(c, n, mr, r.len()) || !arguments(c, n, mw, w.len()) {
        return (1, 0);
    }
    answer((|| {
        let lower = check(c, n, mr, r)?;
        let upper = thousand(check(c, rows_after(n, &lower), mw, w))?;
        if !ascending(keys) {
            return Err((3, 0));
        }
        if let Some(p) = fit(keys, &lower) {
            return Err((4, p as u64));
        }
        if let Some(p) = fit(&column(&lower, keys, 0), &upper) {
            return Err((4, 1000 + p as u64));
        }
        let new = combined(c, keys, &lower, &upper);
        if new.len() > room(c, out.len()) {
            return Err((9, 0));
        }
        if rows_after(n, &new) > 4096 {
            return Err((10, 0));
        }
        let flat = numbers(&new);
        out[..flat.len()].copy_from_slice(&flat);
        Ok((0, new.len() as u64))
    })())
}

fn clash(e: &Entry, f: &Entry) -> bool {
    match (e.kind, f.kind) {
        (ADD, ADD) => e.key() == f.key(),
        (ADD, _) | (_, ADD) => false,
        (STRIKE, _) | (_, STRIKE) => e.pos == f.pos,
        (i, j) => e.pos == f.pos && i == j && e.vals[0] != f.vals[0],
    }
}

pub fn moved(x: &[Entry], y: &[Entry]) -> Vec<Entry> {
    x.iter()
        .map(|e| {
            let strikes = count(y, |f| f.kind == STRIKE && f.pos < e.pos) as u64;
            let adds = if e.kind == ADD {
                count(y, |f| f.kind == ADD && f.pos < e.pos) + count(y, |f| f.kind == ADD && f.pos == e.pos && f.key() < e.key())
            } else {
                count(y, |f| f.kind == ADD && f.pos <= e.pos)
            } as u64;
            Entry { pos: e.pos + adds - strikes, ..e.clone() }
        })
        .collect()
}

pub fn kw_move(c: usize, keys: &[u64], mx: usize, x: &mut [u64], my: usize, y: &[u64]) -> Pair {
    let n = keys.len();
    if !arguments(c, n, mx, x.len()) || !arguments(c, n, my, y.len()) {
        return (1, 0);
    }
    answer((|| {
        let mine = check(c, n, mx, x)?;
        let theirs = thousand(check(c, n, my, y))?;
        if !ascending(keys) {
            return Err((3, 0));
        }
        if let Some(p) = fit(keys, &mine) {
            return Err((4, p as u64));
        }
        if let Some(p) = fit(keys, &theirs) {
            return Err((4, 1000 + p as u64));
        }
        if let Some(p) = mine.iter().position(|e| theirs.iter().any(|f| clash(e, f))) {
            return Err((8, p as u64));
        }
        let rows = rows_after(n, &theirs) + count(&mine, |e| e.kind == ADD) - count(&mine, |e| e.kind == STRIKE);
        if rows > 4096 {
            return Err((10, 0));
        }
        let flat = numbers(&moved(&mine, &theirs));
        x[..flat.len()].copy_from_slice(&flat);
        Ok((0, mx as u64))
    })())
}

/// A layer redone on a table by key: strikes, then changes, then adds.
pub fn redone(keys: &[u64], layer: &[Entry], rows: &[Vec<u64>]) -> Vec<Vec<u64>> {
    let mut out = rows.to_vec();
    for e in layer.iter().filter(|e| e.kind == STRIKE) {
        out.retain(|r| r[0] != e.key());
    }
    for e in layer.iter().filter(|e| e.is_change()) {
        let k = keys[e.pos as usize];
        for r in out.iter_mut().filter(|r| r[0] == k) {
            r[e.kind as usize] = e.vals[0];
        }
    }
    out.extend(layer.iter().filter(|e| e.kind == ADD).map(|e| e.vals.clone()));
    out.sort();
    out
}
