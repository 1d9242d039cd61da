//! How often each number of a lent slice is stored and loaded in a call, from a trace of memory: `valgrind --tool=lackey --trace-mem=yes`.
//! The traced program, `serve`, gets the calls on its standard input, ready made, and stores to a marker before and after each.

use crate::calls::{CARD, PLAIN};
use crate::scope::Pair;
use std::collections::VecDeque;
use std::fs::File;
use std::io::{BufRead, BufReader, Read, Write};
use std::mem::ManuallyDrop;
use std::os::fd::FromRawFd;
use std::path::Path;
use std::process::{Command, Stdio};
use std::sync::atomic::AtomicU64;
use std::sync::OnceLock;

/// Numbers that stand in front of a slice and behind it, and are watched too.
pub const GUARD: usize = 16;
const GUARDED: u64 = 0xA5A5_0000_5A5A_0001;
const MOST_NUMBERS: usize = 2 * GUARD + 8 + 520 * 10;
const HEAD: usize = 11;

/// The marker: nothing else stores to it.
static MARK: AtomicU64 = AtomicU64::new(0);

extern "C" {
    fn control_strike(way: usize, c: usize, m: usize, layer: *mut u64, keys: *const u64, i: usize, k: usize) -> usize;
    fn control_renumber(c: usize, m: usize, layer: *mut u64, keys: *const u64, row: *const u64, i: usize, t: usize, p: usize) -> usize;
}

#[derive(Clone, Debug)]
pub enum Edit {
    Add(Vec<u64>),
    Strike(usize),
    /// Row number, column, value.
    Change(usize, usize, u64),
    /// Row number, group number.
    Renumber(usize, u64),
    /// c/control.c: the way it goes wrong, and the entries that a strike replaces: the first, and how many.
    Control(usize, usize, usize),
    /// A renumbering by a strike and an add: row number, and the row with its new number.
    Twice(usize, Vec<u64>),
    /// c/control.c: the entry that the strike replaces, the one that the add stands before, its position, and the row with its new number.
    Between(usize, usize, usize, Vec<u64>),
}

/// An edit of a slice, which begins so many numbers behind a fixed address, by the archive or by plain C. It is lent the key column, and for
/// a renumbering the whole table.
#[derive(Clone, Debug)]
pub struct Call {
    pub edit: Edit,
    pub plain: bool,
    pub c: usize,
    pub m: usize,
    pub slice: Vec<u64>,
    pub lent: Vec<u64>,
    pub offset: usize,
}

/// What a call answered and left, and how often it stored and loaded each number of the slice and of the guards around it.
pub struct Counts {
    pub answer: Pair,
    pub slice: Vec<u64>,
    pub stored: Vec<u32>,
    pub loaded: Vec<u32>,
}

fn bytes(numbers: &[u64]) -> &[u8] {
    unsafe { std::slice::from_raw_parts(numbers.as_ptr().cast(), numbers.len() * 8) }
}

fn bytes_mut(numbers: &mut [u64]) -> &mut [u8] {
    unsafe { std::slice::from_raw_parts_mut(numbers.as_mut_ptr().cast(), numbers.len() * 8) }
}

fn numbers(from: &mut impl Read, count: usize) -> std::io::Result<Vec<u64>> {
    let mut all = vec![0; count];
    from.read_exact(bytes_mut(&mut all)).map(|()| all)
}

impl Call {
    /// The call as the traced program reads it.
    fn sent(&self) -> Vec<u64> {
        let none = Vec::new();
        let (what, row, [r, j, v]) = match &self.edit {
            Edit::Add(row) => (0, row, [0, 0, 0]),
            Edit::Strike(r) => (1, &none, [*r, 0, 0]),
            Edit::Change(r, j, v) => (2, &none, [*r, *j, *v as usize]),
            Edit::Renumber(r, g) => (3, &none, [*r, 0, *g as usize]),
            Edit::Control(way, i, k) => (4, &none, [*i, *k, *way]),
            Edit::Twice(r, row) => (5, row, [*r, 0, 0]),
            Edit::Between(i, t, p, row) => (6, row, [*i, *t, *p]),
        };
        let head: [usize; HEAD] = [what, self.c, self.m, self.slice.len(), self.lent.len(), row.len(), r, j, v, self.offset, self.plain as usize];
        let (head, guard) = (head.map(|x| x as u64), [GUARDED; GUARD]);
        [&head[..], &guard, &self.slice, &guard, &self.lent, row].concat()
    }
}

/// The traced program: says where the marker and the slices are, then makes the calls that it reads.
pub fn serve() {
    let [mut from, mut to] = [0, 1].map(|fd| ManuallyDrop::new(unsafe { File::from_raw_fd(fd) }));
    let (mut region, mut lent, mut row, mut head) = (vec![0u64; MOST_NUMBERS], vec![0u64; 8 * 4096], vec![0u64; 8], [0u64; HEAD]);
    let mark = MARK.as_ptr();
    to.write_all(bytes(&[mark as u64, region.as_ptr() as u64])).unwrap();
    while from.read_exact(bytes_mut(&mut head)).is_ok() {
        let [what, c, m, len, n, width, r, j, v, offset, plain] = head.map(|x| x as usize);
        let who = [&CARD, &PLAIN][plain];
        let (region, keys, row) = (&mut region[offset..offset + len + 2 * GUARD], &mut lent[..n], &mut row[..width]);
        for part in [&mut *region, &mut *keys, &mut *row] {
            from.read_exact(bytes_mut(part)).unwrap();
        }
        let slice = &mut region[GUARD..GUARD + len];
        unsafe { mark.write_volatile(1) };
        let answer = match what {
            0 => who.add(c, m, slice, keys, row),
            1 => who.strike(c, m, slice, keys, r),
            2 => who.change(c, m, slice, keys, r, j, v as u64),
            3 => who.renumber(c, keys.len() / c, m, slice, keys, r, v as u64),
            4 => (0, unsafe { control_strike(v, c, m, slice.as_mut_ptr(), keys.as_ptr(), r, j) } as u64),
            5 => {
                let (number, k) = who.strike(c, m, slice, keys, r);
                if number == 0 { who.add(c, k as usize, slice, keys, row) } else { (number, k) }
            }
            _ => (0, unsafe { control_renumber(c, m, slice.as_mut_ptr(), keys.as_ptr(), row.as_ptr(), r, j, v) } as u64),
        };
        unsafe { mark.write_volatile(2) };
        to.write_all(bytes(&[answer.0, answer.1])).unwrap();
        to.write_all(bytes(region)).unwrap();
    }
}

/// A line of the trace that tells of a store (S), a load (L) or both (M): which, the address and the bytes.
fn access(line: &[u8]) -> Option<(u8, u64, u64)> {
    let [b' ', what, b' ', rest @ ..] = line else { return None };
    let text = std::str::from_utf8(rest).ok()?.trim_end();
    let (at, size) = text.split_once(',')?;
    Some((*what, u64::from_str_radix(at, 16).ok()?, size.parse().ok()?))
}

/// Where the marker and the slices are.
type Places = (u64, u64);

/// Follows a trace: how often each byte of each call's guarded slice is stored and loaded in the call; and the last lines that are no trace.
fn follow(mut trace: impl BufRead, calls: &[Call], places: &OnceLock<Places>) -> (Vec<[Vec<u32>; 2]>, VecDeque<String>) {
    let (mut all, mut inside, mut said, mut line) = (Vec::<[Vec<u32>; 2]>::new(), false, VecDeque::new(), Vec::new());
    loop {
        line.clear();
        if !trace.read_until(b'\n', &mut line).is_ok_and(|k| k > 0) {
            return (all, said);
        }
        if line.starts_with(b"I ") {
            continue;
        }
        let Some((what, at, size)) = access(&line) else {
            said.push_back(String::from_utf8_lossy(&line).into_owned());
            if said.len() > 20 {
                said.pop_front();
            }
            continue;
        };
        let Some((mark, region)) = places.get() else { continue };
        if what == b'S' && at == *mark {
            inside = !inside;
            if inside {
                let length = calls.get(all.len()).map_or(0, |k| 8 * (k.slice.len() + 2 * GUARD));
                all.push([vec![0; length], vec![0; length]]);
            }
            continue;
        }
        if !inside {
            continue;
        }
        let (i, last) = (all.len() - 1, all.last_mut().unwrap());
        let start = region + calls.get(i).map_or(0, |k| 8 * k.offset as u64);
        for (b, counts) in last.iter_mut().enumerate() {
            if what == b"SL"[b] || what == b'M' {
                for a in at.max(start)..at + size {
                    if let Some(count) = counts.get_mut((a - start) as usize) {
                        *count += 1;
                    }
                }
            }
        }
    }
}

/// A number is stored as often as the byte of it that is stored most.
fn by_number(bytes: &[u32]) -> Vec<u32> {
    bytes.chunks(8).map(|b| b.iter().copied().max().unwrap_or(0)).collect()
}

/// Makes the calls in the traced program, `program traced`.
pub fn counts(program: &Path, calls: &[Call]) -> Result<Vec<Counts>, String> {
    let mut child = Command::new("valgrind")
        // level 0: a load is told of even where its value is not used
        .args(["--tool=lackey", "--trace-mem=yes", "--vex-iropt-level=0"])
        .arg(program)
        .arg("traced")
        .stdin(Stdio::piped())
        .stdout(Stdio::piped())
        .stderr(Stdio::piped())
        .spawn()
        .map_err(|e| format!("stores and loads are counted by valgrind, which does not start ({e}): install valgrind"))?;
    let (mut to, mut from, trace) = (child.stdin.take().unwrap(), child.stdout.take().unwrap(), child.stderr.take().unwrap());
    let places = OnceLock::new();
    let (answers, (traced, said)) = std::thread::scope(|s| {
        let follower = s.spawn(|| follow(BufReader::with_capacity(1 << 20, trace), calls, &places));
        // the first call is sent when the places are known, so that no marker is missed
        let answers = numbers(&mut from, 2).and_then(|at| {
            places.set((at[0], at[1])).unwrap();
            s.spawn(move || calls.iter().all(|k| to.write_all(bytes(&k.sent())).is_ok()));
            let mut answer = |k: &Call| Ok((numbers(&mut from, 2)?, numbers(&mut from, k.slice.len() + 2 * GUARD)?));
            calls.iter().map(&mut answer).collect::<std::io::Result<Vec<_>>>()
        });
        (answers, follower.join().unwrap())
    });
    let ended = child.wait().map_err(|e| e.to_string())?;
    let answers = match answers {
        Ok(a) if ended.success() && traced.len() == calls.len() => a,
        _ => return Err(format!("the traced program ended ({ended}) after {} calls of {}: {said:?}", traced.len(), calls.len())),
    };
    answers
        .into_iter()
        .zip(traced)
        .map(|((a, slice), [s, l])| {
            let inner = slice[GUARD..slice.len() - GUARD].to_vec();
            if slice[..GUARD].iter().chain(&slice[slice.len() - GUARD..]).any(|x| *x != GUARDED) {
                return Err("a call wrote past its slice".to_string());
            }
            Ok(Counts { answer: (a[0], a[1]), slice: inner, stored: by_number(&s), loaded: by_number(&l) })
        })
        .collect()
}
