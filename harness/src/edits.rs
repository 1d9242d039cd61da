//! What the edits of the built archive store and load of a layer's slice, by kind of edit, and the bars for it.

use crate::scope::{self, Entry, Origin, Pair};
use crate::spread::{keys, spread};
use crate::trace::{self, Call, Counts, Edit, GUARD};
use std::path::Path;

/// The sizes of the layers.
const SIZES: [usize; 5] = [0, 1, 9, 68, 511];

/// One edit, the layer before it and after it, and the answer, by the scope.
pub struct Case {
    pub kind: &'static str,
    pub at: String,
    pub call: Call,
    old: Vec<Entry>,
    new: Vec<Entry>,
    answer: Pair,
    after: Vec<u64>,
    /// The first number that the edit writes, where it writes a value and no entry.
    value: Option<usize>,
}

/// What an edit stored and loaded. All but `most` count numbers.
#[derive(Clone, Debug)]
pub struct Sum {
    /// Most stores of one number of the new layer.
    pub most: u32,
    pub stored: usize,
    /// Stored, and in front of the edit's place.
    pub front: usize,
    /// Stored or loaded, and outside the old and the new layer.
    pub outside: usize,
    /// Freed and not stored.
    pub left: usize,
    /// Stored, and neither new nor moved nor freed.
    pub more: usize,
    /// Loads of numbers of the old and the new layer, each as often as it is loaded.
    pub loads: usize,
    /// The numbers behind the edit, where they move.
    pub tail: usize,
    /// Loaded more than once.
    pub again: usize,
}

impl Sum {
    /// The bars that are broken, in words.
    pub fn broken(&self) -> Vec<String> {
        [
            (self.most > 1, format!("a number of the new layer is stored {} times", self.most)),
            (self.front > 0, format!("{} numbers in front of the edit are stored", self.front)),
            (self.outside > 0, format!("{} numbers outside the layer are stored or loaded", self.outside)),
            (self.left > 0, format!("{} freed numbers are not stored", self.left)),
            (self.more > 0, format!("{} numbers are stored that are neither new nor moved nor freed", self.more)),
        ]
        .into_iter()
        .filter_map(|(yes, words)| yes.then_some(words))
        .collect()
    }
}

impl Case {
    /// A slice that holds the layer and `spare` numbers behind it, and the edit by the scope.
    fn new(kind: &'static str, at: String, c: usize, keys: &[u64], old: Vec<Entry>, spare: usize, edit: Edit) -> Case {
        let (m, mut slice) = (old.len(), scope::numbers(&old));
        slice.extend((0..spare as u64).map(|x| x * 0x9E37_79B9 + 1));
        let mut after = slice.clone();
        let answer = match &edit {
            Edit::Add(row) => scope::kw_add(c, m, &mut after, keys, row),
            Edit::Strike(r) => scope::kw_strike(c, m, &mut after, keys, *r),
            Edit::Change(r, j, v) => scope::kw_change(c, m, &mut after, keys, *r, *j, *v),
            Edit::Renumber(r, g) => scope::kw_renumber(c, keys.len(), m, &mut after, &whole(c, keys), *r, *g),
            Edit::Control(_, i, _) => {
                scope::kw_strike(c, m, &mut after, keys, row_of(keys.len(), &old, Origin::Base(old[*i].pos as usize)))
            }
            Edit::Twice(r, row) => scope::kw_renumber(c, keys.len(), m, &mut after, &whole(c, keys), *r, row[0]),
            Edit::Between(i, _, _, row) => {
                let r = row_of(keys.len(), &old, Origin::Base(old[*i].pos as usize));
                scope::kw_renumber(c, keys.len(), m, &mut after, &whole(c, keys), r, row[0])
            }
        };
        let new = if answer.0 == 0 { scope::entries(c, answer.1 as usize, &after) } else { old.clone() };
        let value = match edit {
            Edit::Change(r, j, _) if answer == (0, m as u64) => match scope::origins(keys.len(), &old)[r] {
                Origin::Added(i) => Some(i * (c + 2) + 2 + j),
                Origin::Base(s) => old.iter().position(|e| e.pos == s as u64 && e.kind == j as u64).map(|i| i * (c + 2) + 2),
            },
            _ => None,
        };
        let lent = if matches!(edit, Edit::Renumber(..)) { whole(c, keys) } else { keys.to_vec() };
        let call = Call { edit, plain: false, c, m, slice, lent, offset: 0 };
        Case { kind, at, call, old, new, answer, after, value }
    }

    /// The scope refuses it with the number that its name begins with.
    pub fn refused(&self) -> bool {
        self.answer.0 != 0 && self.kind.starts_with(&self.answer.0.to_string())
    }

    /// The layer stays as it is, and the edit is accepted.
    pub fn nothing_changes(&self) -> bool {
        self.answer.0 == 0 && self.old == self.new
    }

    /// One value of the layer changes, and nothing else.
    pub fn value_changes(&self) -> bool {
        self.answer == (0, self.call.m as u64) && matches!(self.call.edit, Edit::Change(..))
    }

    /// Whether entry number i of the new layer stood there in the old one. No two entries of a layer are alike.
    fn stays(&self, i: usize) -> bool {
        self.old.get(i).is_some_and(|d| self.new.get(i) == Some(d))
    }

    /// The numbers that move: of entries that stood elsewhere.
    fn tail(&self) -> usize {
        (0..self.new.len()).filter(|i| !self.stays(*i) && self.old.contains(&self.new[*i])).count() * (self.call.c + 2)
    }

    /// Whether the edit is to store number x of the layer, old and new: the one value, else what comes, what moves and what is freed.
    fn due(&self, x: usize) -> bool {
        self.value.map_or(!self.stays(x / (self.call.c + 2)), |v| x == v)
    }

    /// The first number that the edit writes: that of a value, else of an entry, else behind all.
    fn place(&self) -> usize {
        let front = (0..self.old.len()).take_while(|i| self.stays(*i)).count();
        self.value.unwrap_or(front * (self.call.c + 2))
    }

    fn sum(&self, counts: &Counts) -> Sum {
        assert_eq!((counts.answer, &counts.slice), (self.answer, &self.after), "{} {}, {:?}", self.kind, self.at, self.call);
        let w = self.call.c + 2;
        let (place, new, layer) = (GUARD + self.place(), GUARD + self.new.len() * w, GUARD + self.old.len().max(self.new.len()) * w);
        let (s, l) = (&counts.stored, &counts.loaded);
        let number = |test: &dyn Fn(usize) -> bool| (0..s.len()).filter(|x| test(*x)).count();
        let stored = number(&|x| s[x] > 0);
        let mut differ = (0..self.after.len()).filter(|x| self.call.slice[*x] != self.after[*x]);
        let loads = l[GUARD..layer].iter().sum::<u32>() as usize;
        let tail = self.tail();
        assert!(loads >= tail, "a load is missing in the trace of {} {}", self.kind, self.at);
        assert!(differ.all(|x| s[GUARD + x] > 0), "a store is missing in the trace of {} {}", self.kind, self.at);
        Sum {
            most: s[GUARD..new].iter().copied().max().unwrap_or(0),
            stored,
            front: number(&|x| s[x] > 0 && (GUARD..place).contains(&x)),
            outside: number(&|x| s[x] + l[x] > 0 && !(GUARD..layer).contains(&x)),
            left: number(&|x| s[x] == 0 && (new..layer).contains(&x)),
            more: number(&|x| s[x] > 0 && (place..layer).contains(&x) && !self.due(x - GUARD)),
            loads,
            tail,
            again: number(&|x| l[x] > 1),
        }
    }
}

/// The row number of a base row or an added entry.
fn row_of(n: usize, layer: &[Entry], what: Origin) -> usize {
    scope::origins(n, layer).iter().position(|o| *o == what).unwrap()
}

/// A row with this key.
fn row(c: usize, key: u64) -> Vec<u64> {
    (0..c as u64).map(|j| if j == 0 { key } else { 100 + j }).collect()
}

/// A whole table with these keys.
fn whole(c: usize, keys: &[u64]) -> Vec<u64> {
    (0..c as u64).flat_map(|j| keys.iter().map(move |k| k + j * 1_000_000)).collect()
}

/// A layer of m entries, and an even base row, in front, in the middle or behind all, that had no entry of its own and got `own` of them:
/// a row added in front of it, or changes from column 1 on.
struct Stage {
    at: &'static str,
    keys: Vec<u64>,
    s: usize,
    layer: Vec<Entry>,
}

#[derive(Clone, Copy, PartialEq)]
enum Own {
    Added,
    Changes(usize),
}

fn stages(c: usize, m: usize, own: Own) -> Vec<Stage> {
    let more = if let Own::Changes(k) = own { k } else { 1 };
    if more > m || (own != Own::Added && more >= c && more > 0) {
        return Vec::new();
    }
    let q = m - more;
    let keys = keys(2 * q + 6);
    let mut places = vec![("front", 0), ("middle", q / 2 * 2), ("end", 2 * q)];
    places.dedup_by_key(|p| p.1);
    places
        .into_iter()
        .map(|(at, s)| {
            let mut layer = spread(c, &keys[..2 * q], q, 1);
            match own {
                Own::Added => layer = scope::with_add(&keys, &layer, &row(c, keys[s] - 2)),
                Own::Changes(k) => {
                    let r = row_of(keys.len(), &layer, Origin::Base(s));
                    for j in 1..=k {
                        layer = scope::with_change(c, &keys, &layer, r, j, 1000 + j as u64);
                    }
                }
            }
            Stage { at, s, layer, keys: keys.clone() }
        })
        .collect()
}

impl Stage {
    fn base(&self) -> usize {
        row_of(self.keys.len(), &self.layer, Origin::Base(self.s))
    }
    fn added(&self) -> usize {
        let i = self.layer.iter().position(|e| e.kind == scope::ADD && e.pos == self.s as u64).unwrap();
        row_of(self.keys.len(), &self.layer, Origin::Added(i))
    }
    /// The row that the entries of its own are of: its number, and its group number.
    fn own(&self, own: Own) -> (usize, u64) {
        if own == Own::Added { (self.added(), self.keys[self.s] - 2) } else { (self.base(), self.keys[self.s]) }
    }
    /// Group numbers to give a row that has this one, and where they stand: in front of all entries, in the middle, behind all, and in the
    /// row's own place, below and above.
    fn numbers(&self, own: u64) -> Vec<(&'static str, u64)> {
        let middle = (self.keys.len() - 6) / 4 * 2;
        let end = self.keys[self.keys.len() - 1] + 2;
        let all = [("front", 1), ("middle", self.keys[middle] - 4), ("end", end), ("below", own - 1), ("above", own + 1)];
        all.into_iter().filter(|(name, _)| middle > 0 || *name != "middle").collect()
    }
    fn case(self, kind: &'static str, c: usize, spare: usize, edit: Edit) -> Case {
        Case::new(kind, self.at.to_string(), c, &self.keys, self.layer, spare, edit)
    }
    fn renumbered(&self, kind: &'static str, to: &str, c: usize, spare: usize, r: usize, g: u64) -> Case {
        Case::new(kind, format!("{} to {to}", self.at), c, &self.keys, self.layer.clone(), spare, Edit::Renumber(r, g))
    }
}

/// Every kind of edit of a layer of m entries; now and then the slice just holds one entry more.
fn edits(c: usize, m: usize) -> Vec<Case> {
    let mut all = Vec::new();
    let w = c + 2;
    let mut put = |kind, own, edit: &dyn Fn(&Stage) -> Edit| {
        for (x, stage) in stages(c, m, own).into_iter().enumerate() {
            let edit = edit(&stage);
            let case = stage.case(kind, c, [w, 3 * w + 1, w + 1][(x + m) % 3], edit);
            assert_eq!(case.answer.0, 0, "{kind} is refused");
            all.push(case);
        }
    };
    put("add", Own::Changes(0), &|t| Edit::Add(row(c, t.keys[t.s] - 2)));
    put("strike, added row", Own::Added, &|t| Edit::Strike(t.added()));
    put("strike, base row", Own::Changes(0), &|t| Edit::Strike(t.base()));
    put("strike, 1 change", Own::Changes(1), &|t| Edit::Strike(t.base()));
    if c > 2 {
        put("strike, c - 1 changes", Own::Changes(c - 1), &|t| Edit::Strike(t.base()));
    }
    if c > 1 {
        put("change entered", Own::Changes(0), &|t| Edit::Change(t.base(), c - 1, 5));
        put("change replaced", Own::Changes(1), &|t| Edit::Change(t.base(), 1, 5));
        put("change, added row", Own::Added, &|t| Edit::Change(t.added(), c - 1, 5));
    }
    all
}

/// The kinds of row that are renumbered, and how many entries more each leaves.
fn rows(c: usize) -> Vec<(&'static str, Own, isize)> {
    let mut all = vec![("renumber, added row", Own::Added, 0), ("renumber, base row", Own::Changes(0), 2)];
    let few = [("renumber, 1 change", 1), ("renumber, 2 changes", 2), ("renumber, 3 changes", 3)].into_iter().filter(|(_, k)| *k < c);
    let most = [("renumber, c - 1 changes", c - 1)].into_iter().filter(|(_, k)| *k > 3);
    all.extend(few.chain(most).map(|(kind, k)| (kind, Own::Changes(k), 2 - k as isize)));
    all
}

/// Every kind of renumbering of a layer of m entries, from the front, the middle and the end to each of them: in slices that just hold what
/// is left, and in longer ones. Of a row that needs two entries more the layer of 511 has 510.
fn renumberings(c: usize, m: usize) -> Vec<Case> {
    let mut all = Vec::new();
    let w = c + 2;
    for (kind, own, more) in rows(c).into_iter().filter(|(_, _, more)| m < 512 || *more == 0) {
        let m = if more == 2 { m.min(510) } else { m };
        for stage in stages(c, m, own) {
            let (r, number) = stage.own(own);
            // of long layers, to a row's own place from the middle alone
            let near = m < 500 || stage.at == "middle";
            for (to, g) in stage.numbers(number).into_iter().filter(|(_, g)| near || g.abs_diff(number) > 1) {
                let least = more.max(0) as usize * w;
                let spare = least + [0, c + 1, w, 3 * w + 1][all.len() % 4];
                let case = stage.renumbered(kind, to, c, spare, r, g);
                assert_eq!(case.answer, (0, (m as isize + more) as u64), "{kind} {}", case.at);
                all.push(case);
            }
        }
    }
    all
}

/// Rows that get their own numbers.
pub fn own_numbers(c: usize, m: usize) -> Vec<Case> {
    let mut all = Vec::new();
    for (_, own, _) in rows(c) {
        for stage in stages(c, m, own) {
            let (r, number) = stage.own(own);
            all.push(stage.renumbered("renumber, own number", "itself", c, m % 3, r, number));
        }
    }
    all
}

/// Every kind of edit of layers of every size; renumberings of full ones too.
pub fn all(c: usize) -> Vec<Case> {
    let renumbered = SIZES.into_iter().chain([512]).flat_map(|m| renumberings(c, m));
    SIZES.into_iter().flat_map(|m| edits(c, m)).chain(renumbered).collect()
}

/// Edits of a layer of m entries that are refused.
pub fn refused(c: usize, m: usize) -> Vec<Case> {
    let mut all = Vec::new();
    let mut put = |kind, own, spare, edit: &dyn Fn(&Stage) -> Edit| {
        for stage in stages(c, m, own).into_iter() {
            let edit = edit(&stage);
            all.push(stage.case(kind, c, spare, edit));
        }
    };
    // a slice one number short of another entry; or, of 512 entries, a long one
    let full = if m == 512 { 3 * (c + 2) } else { c + 1 };
    put("9, add", Own::Changes(0), full, &|t| Edit::Add(row(c, t.keys[t.s] - 2)));
    put("9, strike", Own::Changes(0), full, &|t| Edit::Strike(t.base()));
    put("7, base row", Own::Changes(0), 3 * (c + 2), &|t| Edit::Add(row(c, t.keys[t.s])));
    put("7, added row", Own::Added, 3 * (c + 2), &|t| Edit::Add(row(c, t.keys[t.s] - 2)));
    put("5, strike", Own::Changes(0), c + 2, &|t| Edit::Strike(scope::rows_after(t.keys.len(), &t.layer)));
    put("9, renumber", Own::Changes(0), full, &|t| Edit::Renumber(t.base(), 1));
    put("9, renumber, room for a strike", Own::Changes(0), c + 2 + full, &|t| Edit::Renumber(t.base(), t.keys[t.s] + 1));
    put("9, renumber, 1 change", Own::Changes(1), full, &|t| Edit::Renumber(t.base(), t.keys[t.keys.len() - 1] + 2));
    put("7, renumber to a base row's", Own::Added, 3 * (c + 2), &|t| Edit::Renumber(t.added(), t.keys[t.s]));
    put("7, renumber to an added row's", Own::Added, 0, &|t| Edit::Renumber(t.base(), t.keys[t.s] - 2));
    put("5, renumber", Own::Changes(0), c + 2, &|t| Edit::Renumber(scope::rows_after(t.keys.len(), &t.layer), 1));
    put("6, change", Own::Changes(0), c + 2, &|t| Edit::Change(t.base(), 0, 5));
    if c > 1 {
        put("9, change", Own::Changes(0), full, &|t| Edit::Change(t.base(), 1, 5));
        put("5, change", Own::Changes(0), c + 2, &|t| Edit::Change(scope::rows_after(t.keys.len(), &t.layer), 1, 5));
    }
    all
}

/// The ways of going wrong, six strikes of c/control.c, a renumbering by a strike and an add, and one of c/control.c, and the bar that each
/// breaks, by a word of it.
pub const CONTROLS: [&str; 8] = ["times", "freed", "in front", "outside", "outside", "neither", "times", "neither"];

/// Strikes of a base row with two changes and more that go wrong, each in its way, and of the last with one change; a renumbering upward of a
/// row with none, and of a row with one. The layer ends with a strike, so that zeros are freed.
pub fn controls(c: usize) -> Vec<Case> {
    (0..CONTROLS.len())
        .filter_map(|way| {
            let k = [c - 1, c - 1, c - 1, c - 1, c - 1, 1, 0, 1][way];
            let stage = stages(c, 69, Own::Changes(k)).into_iter().find(|t| t.at == "middle")?;
            let r = stage.base();
            let mut row = scope::table(&stage.layer, &scope::rows_of(c, stage.keys.len(), &whole(c, &stage.keys)))[r].clone();
            let i = stage.layer.iter().position(|e| e.pos >= stage.s as u64)?;
            // an even row that lies further on, and has no entry
            let p = stage.s + 20;
            row[0] = stage.keys[p] - 2;
            let edit = match way {
                6 => Edit::Twice(r, row),
                7 => Edit::Between(i, stage.layer.iter().position(|e| e.pos >= p as u64)?, p, row),
                _ => Edit::Control(way, i, k),
            };
            Some(stage.case("control", c, 3 * (c + 2), edit))
        })
        .collect()
}

/// Makes the edits in the traced program, and counts. The slices begin at every place of a line of 64 bytes.
pub fn sums(program: &Path, cases: &mut [Case]) -> Result<Vec<Sum>, String> {
    for (x, case) in cases.iter_mut().enumerate() {
        case.call.offset = x % 8;
    }
    let calls: Vec<Call> = cases.iter().map(|k| k.call.clone()).collect();
    Ok(trace::counts(program, &calls)?.iter().zip(cases).map(|(counts, case)| case.sum(counts)).collect())
}

pub const HEADING: &str = "\
| edit | at | c | m | most stores of a number | numbers stored | loads | of them the move | the rest | loaded more than once | over |
|---|---|---|---|---|---|---|---|---|---|---|";

/// A line of the table: loads as multiples of the layer's numbers.
pub fn line(case: &Case, sum: &Sum) -> String {
    let (c, m) = (case.call.c, case.call.m);
    let layer = m * (c + 2);
    let times = |loads: usize| if layer == 0 { format!("({loads})") } else { format!("{:.2}", loads as f64 / layer as f64) };
    let rest = sum.loads - sum.tail;
    let over = sum.broken().join("; ");
    let (total, tail, rest) = (times(sum.loads), times(sum.tail), times(rest));
    format!("| {} | {} | {c} | {m} | {} | {} | {total} | {tail} | {rest} | {} | {over} |", case.kind, case.at, sum.most, sum.stored, sum.again)
}
