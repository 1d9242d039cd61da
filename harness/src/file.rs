//! Request 1, a layer's file: an implementation of its own from docs/REQUESTS.md, and the comparison of the archive and plain C with it, on
//! random, damaged and truncated files.

use crate::scope::{self, Entry, Pair, ADD, STRIKE};
use crate::Rng;

#[repr(C)]
pub struct Answer {
    number: u64,
    value: u64,
}

extern "C" {
    fn kw_file_check(file: *const u8, len: usize) -> u64;
    fn kw_file_entries(file: *const u8, len: usize) -> u64;
    fn kw_file_columns(file: *const u8, len: usize) -> u64;
    fn kw_file_rows(file: *const u8, len: usize) -> u64;
    fn kw_file_note(file: *const u8, len: usize) -> usize;
    fn kw_load(file: *const u8, len: usize, layer: *mut u64, layer_len: usize) -> Answer;
    fn kw_save(c: usize, n: usize, m: usize, layer: *const u64, layer_len: usize, file: *mut u8, len: usize) -> Answer;
    fn plain_file_check(file: *const u8, len: usize) -> Answer;
    fn plain_load(file: *const u8, len: usize, layer: *mut u64, layer_len: usize) -> Answer;
    fn plain_save(c: usize, n: usize, m: usize, layer: *const u64, layer_len: usize, file: *mut u8, len: usize) -> Answer;
}

fn pair(a: Answer) -> Pair {
    (a.number, a.value)
}

/// The archive's calls on slices: number, entries, columns, base rows and note of a file; load; save.
pub fn card_check(file: &[u8]) -> [u64; 5] {
    let (p, l) = (file.as_ptr(), file.len());
    unsafe { [kw_file_check(p, l), kw_file_entries(p, l), kw_file_columns(p, l), kw_file_rows(p, l), kw_file_note(p, l) as u64] }
}

pub fn card_number(file: &[u8]) -> u64 {
    unsafe { kw_file_check(file.as_ptr(), file.len()) }
}

pub fn card_load(file: &[u8], layer: &mut [u64]) -> Pair {
    pair(unsafe { kw_load(file.as_ptr(), file.len(), layer.as_mut_ptr(), layer.len()) })
}

pub fn card_save(c: usize, n: usize, m: usize, layer: &[u64], file: &mut [u8]) -> Pair {
    pair(unsafe { kw_save(c, n, m, layer.as_ptr(), layer.len(), file.as_mut_ptr(), file.len()) })
}

/// The same in plain C.
pub fn plain_check_of(file: &[u8]) -> Pair {
    pair(unsafe { plain_file_check(file.as_ptr(), file.len()) })
}

pub fn plain_load_of(file: &[u8], layer: &mut [u64]) -> Pair {
    pair(unsafe { plain_load(file.as_ptr(), file.len(), layer.as_mut_ptr(), layer.len()) })
}

pub fn plain_save_of(c: usize, n: usize, m: usize, layer: &[u64], file: &mut [u8]) -> Pair {
    pair(unsafe { plain_save(c, n, m, layer.as_ptr(), layer.len(), file.as_mut_ptr(), file.len()) })
}

/// What a file is: its columns, base rows and numbers, or its refusal.
struct Kept {
    c: usize,
    n: usize,
    m: usize,
    numbers: Vec<u64>,
}

fn word(bytes: &[u8]) -> u64 {
    bytes.iter().rev().fold(0, |v, b| v << 8 | *b as u64)
}

fn kept(file: &[u8]) -> Result<Kept, Pair> {
    let Some(cut) = file.len().checked_sub(32) else { return Err((12, 0)) };
    let trailer: Vec<u128> = file[cut..].chunks(8).map(|b| word(b) as u128).collect();
    let (back, m, c, n) = (trailer[0], trailer[1], trailer[2], trailer[3]);
    if !(1..=8).contains(&c) || n > 4096 || m > 512 {
        return Err((1, 0));
    }
    let whole = file.len() as u128;
    if back != 32 + 8 * m * (c + 2) || !(back..=back + 256).contains(&whole) {
        return Err((12, 0));
    }
    let (c, n, m) = (c as usize, n as usize, m as usize);
    let numbers: Vec<u64> = file[(whole - back) as usize..cut].chunks(8).map(word).collect();
    match scope::form(c, n, &scope::entries(c, m, &numbers)) {
        Some(place) => Err((2, place as u64)),
        None => Ok(Kept { c, n, m, numbers }),
    }
}

pub fn bytes(c: u64, n: u64, m: u64, numbers: &[u64]) -> Vec<u8> {
    let back = 32 + 8 * numbers.len() as u64;
    numbers.iter().chain(&[back, m, c, n]).flat_map(|v| (0..8).map(move |i| (v >> (8 * i)) as u8)).collect()
}

fn load(file: &[u8], layer: &mut [u64]) -> Pair {
    match kept(file) {
        Err(x) => x,
        Ok(k) if layer.len() < k.numbers.len() => (11, 0),
        Ok(k) => {
            layer[..k.numbers.len()].copy_from_slice(&k.numbers);
            (0, k.m as u64)
        }
    }
}

fn save(c: usize, n: usize, m: usize, layer: &[u64], file: &mut [u8]) -> Pair {
    if !(1..=8).contains(&c) || n > 4096 || m > 512 || m * (c + 2) > layer.len() {
        return (1, 0);
    }
    let numbers = &layer[..m * (c + 2)];
    if let Some(place) = scope::form(c, n, &scope::entries(c, m, numbers)) {
        return (2, place as u64);
    }
    let all = bytes(c as u64, n as u64, m as u64, numbers);
    if file.len() < all.len() {
        return (11, 0);
    }
    file[..all.len()].copy_from_slice(&all);
    (0, all.len() as u64)
}

/// How often each answer number was met, by the check, by load and by save; and how many layers were read back behind a note.
#[derive(Default)]
pub struct Report {
    pub met: [[u64; 13]; 3],
    pub read_back: u64,
}

impl Report {
    pub fn missing(&self) -> Option<(&'static str, usize)> {
        let meets: [(&str, &[usize]); 3] =
            [("check", &[0, 1, 2, 12]), ("load", &[0, 1, 2, 11, 12]), ("save", &[0, 1, 2, 11])];
        meets.iter().enumerate().find_map(|(i, (name, ks))| {
            ks.iter().find(|k| self.met[i][**k] == 0).map(|k| (*name, *k))
        })
    }
    pub fn print(&self) {
        for (name, met) in ["check", "load", "save"].iter().zip(&self.met) {
            println!("{name:>8} {}", met.iter().map(|k| format!("{k:>8}")).collect::<String>());
        }
        println!("layers read back behind a note {}", self.read_back);
    }
}

const GUARD: u64 = 0xDEAD_BEEF_0BAD_F00D;

fn compare_file(file: &[u8], room: usize, report: &mut Report) {
    let wanted = kept(file);
    let said = match &wanted {
        Err(x) => [x.0, 0, 0, 0, 0],
        Ok(k) => [0, k.m as u64, k.c as u64, k.n as u64, (file.len() - 32 - 8 * k.numbers.len()) as u64],
    };
    assert_eq!(card_check(file), said, "check of {} bytes", file.len());
    let place = wanted.as_ref().map_or_else(|x| *x, |k| (0, k.m as u64));
    assert_eq!(plain_check_of(file), place, "plain check of {} bytes", file.len());
    report.met[0][said[0] as usize] += 1;
    let mut three = [vec![GUARD; room + 8], vec![GUARD; room + 8], vec![GUARD; room + 8]];
    let [a, b, c] = &mut three;
    let answer = load(file, &mut a[..room]);
    assert_eq!(card_load(file, &mut b[..room]), answer, "load of {} bytes", file.len());
    assert_eq!(plain_load_of(file, &mut c[..room]), answer, "plain load of {} bytes", file.len());
    assert!(three[0] == three[1] && three[0] == three[2], "load of {} bytes: another slice", file.len());
    report.met[1][answer.0 as usize] += 1;
}

fn compare_save(c: usize, n: usize, m: usize, layer: &[u64], room: usize, report: &mut Report) -> Vec<u8> {
    let mut three = [vec![0xA5; room + 64], vec![0xA5; room + 64], vec![0xA5; room + 64]];
    let [a, b, d] = &mut three;
    let answer = save(c, n, m, layer, &mut a[..room]);
    assert_eq!(card_save(c, n, m, layer, &mut b[..room]), answer, "save of {m} entries");
    assert_eq!(plain_save_of(c, n, m, layer, &mut d[..room]), answer, "plain save of {m} entries");
    assert!(three[0] == three[1] && three[0] == three[2], "save of {m} entries: other bytes");
    report.met[2][answer.0 as usize] += 1;
    if answer.0 == 0 { three[1][..answer.1 as usize].to_vec() } else { Vec::new() }
}

/// A layer in form over n rows.
pub fn layer(rng: &mut Rng, c: usize, n: usize, m: usize) -> Vec<Entry> {
    let (mut all, mut s, mut adds) = (Vec::new(), 0, 0);
    let room = 4096 - n;
    while all.len() < m && s <= n {
        let mut vals = vec![0; c];
        vals[0] = rng.next();
        match rng.below(4) {
            0 if adds < room => {
                vals.iter_mut().for_each(|v| *v = rng.next());
                adds += 1;
                all.push(Entry { pos: s as u64, kind: ADD, vals });
            }
            1 if s < n => {
                all.push(Entry { pos: s as u64, kind: STRIKE, vals });
                s += 1;
            }
            2 if s < n && c > 1 => {
                let first = 1 + rng.below(c - 1);
                for j in first..c {
                    if all.len() < m && (j == first || rng.one_in(2)) {
                        all.push(Entry { pos: s as u64, kind: j as u64, vals: vals.clone() });
                    }
                }
                s += 1;
            }
            _ => s += 1 + rng.below(1 + n / (m + 1)),
        }
    }
    all
}

fn odd(rng: &mut Rng, limit: u64) -> u64 {
    match rng.below(6) {
        0 => 0,
        1 => limit,
        2 => limit + 1,
        3 => 1 << 63,
        4 => u64::MAX,
        _ => rng.next() >> rng.below(64),
    }
}

fn one(rng: &mut Rng, report: &mut Report) {
    let c = 1 + rng.below(8);
    let most = 4096 >> rng.below(13);
    let n = if rng.one_in(8) { 4096 } else { rng.below(1 + most) };
    let m = if rng.one_in(40) { 512 } else { rng.below(24) };
    let mut entries = layer(rng, c, n, m);
    if !entries.is_empty() && rng.one_in(4) {
        let i = rng.below(entries.len());
        match rng.below(4) {
            0 => entries[i].pos = odd(rng, n as u64),
            1 => entries[i].kind = odd(rng, 65_535),
            2 => entries[i].vals[c - 1] = rng.next(),
            _ => entries.swap(i, 0),
        }
    }
    let m = entries.len();
    let numbers = scope::numbers(&entries);
    // save, also with arguments past their limits and short buffers
    let (mut ac, mut an, mut am) = (c, n, m);
    match rng.below(12) {
        0 => ac = odd(rng, 8) as usize,
        1 => an = odd(rng, 4096) as usize,
        2 => am = odd(rng, 512).min(1 << 40) as usize,
        _ => {}
    }
    let bytes_needed = 32 + 8 * numbers.len();
    let room = if rng.one_in(8) { rng.below(bytes_needed) } else { bytes_needed + rng.below(9) };
    let saved = compare_save(ac, an, am, &numbers, room, report);
    // the file as it is, behind a note, damaged, truncated
    let mut file: Vec<u8> = (0..[0, 1, 255, 256, 257, rng.below(300)][rng.below(6)]).map(|_| rng.next() as u8).collect();
    let note = file.len();
    file.extend(if saved.is_empty() { bytes(c as u64, n as u64, m as u64, &numbers) } else { saved.clone() });
    let end = file.len();
    match rng.below(10) {
        0 => {
            let i = rng.below(end);
            file[i] ^= 1 << rng.below(8);
        }
        1 => file.truncate(rng.below(end + 1)),
        2 => {
            let (k, limit) = [(32, bytes_needed as u64), (24, 512), (16, 8), (8, 4096)][rng.below(4)];
            file[end - k..end - k + 8].copy_from_slice(&odd(rng, limit).to_le_bytes());
        }
        3 => {
            let k = 1 + rng.below(40.min(end));
            file.drain(..k);
        }
        4 => file.truncate(rng.below(41).min(end)),
        _ => {}
    }
    let short = rng.one_in(8) && !numbers.is_empty();
    let room = if short { rng.below(numbers.len()) } else { numbers.len() + rng.below(5) };
    compare_file(&file, room, report);
    if !saved.is_empty() && note <= 256 && file.len() == end && file[note..] == saved[..] {
        let mut back = vec![0; numbers.len()];
        assert_eq!(card_load(&file, &mut back), (0, am as u64));
        let many = am * (ac + 2);
        assert_eq!(back[..many], numbers[..many]);
        report.read_back += 1;
    }
}

/// Every length from 0 to 40 bytes; each trailer number at its edges; notes at their edges; 512 entries of eight columns.
fn edges(rng: &mut Rng, report: &mut Report) {
    for len in 0..=40 {
        for fill in [0, 1, 32, 255] {
            compare_file(&vec![fill; len], 8, report);
        }
        let whole = bytes(1, 0, 0, &[]);
        compare_file(&whole[..len.min(32)], 8, report);
        compare_file(&[vec![7; len], whole].concat(), 8, report);
    }
    for (k, limit) in [(32, 32), (24, 512), (16, 8), (8, 4096)] {
        for v in [0, 1, limit - 1, limit, limit + 1, 1 << 63, u64::MAX] {
            let mut file = bytes(8, 4096, 0, &[]);
            let end = file.len();
            file[end - k..end - k + 8].copy_from_slice(&v.to_le_bytes());
            compare_file(&file, 8, report);
        }
    }
    let entries = layer(rng, 8, 3000, 512);
    let numbers = scope::numbers(&entries);
    let saved = compare_save(8, 3000, entries.len(), &numbers, 41_000, report);
    for note in [0, 1, 255, 256, 257] {
        compare_file(&[vec![9; note], saved.clone()].concat(), 5120, report);
    }
}

pub fn run(seed: u64, files: u64) -> Report {
    let (mut rng, mut report) = (Rng::new(seed), Report::default());
    edges(&mut rng, &mut report);
    for _ in 0..files {
        one(&mut rng, &mut report);
    }
    report
}
