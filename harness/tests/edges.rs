//! What stands behind each case of crates/edges/stdin, and what crates/edges/stdout has the program print for it, is what the scope gives.

use harness::scope;
use std::path::Path;

/// The numbers of a list. One that ends in `*k` goes on until it has k, by the difference between its two halves.
fn list(text: &str) -> Vec<u64> {
    let mut all: Vec<u64> = Vec::new();
    for word in text.split_whitespace() {
        let Some(k) = word.strip_prefix('*') else {
            all.push(word.parse().unwrap());
            continue;
        };
        let half = all.len() / 2;
        while all.len() < k.parse().unwrap() {
            let last = all[all.len() - half];
            all.push(last.wrapping_add(last.wrapping_sub(all[all.len() - 2 * half])));
        }
    }
    all
}

fn answer((number, value): scope::Pair) -> String {
    format!("{number} {value}")
}

/// The numbers of a slice, of a long one the first and the last.
fn shown(all: &[u64]) -> String {
    if all.len() > 100 {
        return format!(" | {} .. {}", all[0], all[all.len() - 1]);
    }
    all.iter().fold(" |".to_string(), |text, x| text + &format!(" {x}"))
}

/// What a call left of a slice, of a long one how many numbers it altered, and the last of them.
fn left(was: &[u64], all: &[u64]) -> String {
    if all.len() <= 100 {
        return shown(all);
    }
    let altered: Vec<usize> = (0..all.len()).filter(|i| was[*i] != all[*i]).collect();
    let last = altered.last().map_or(String::new(), |i| format!(", last {i} is {}", all[*i]));
    format!(" | altered {}{last}", altered.len())
}

/// A case's answer by the scope, as the program prints it.
fn printed(case: &str) -> String {
    let (call, rest) = case.split_once(' ').unwrap();
    let mut lists = rest.split(';').map(list);
    let head = lists.next().unwrap();
    let was = lists.next().unwrap();
    let lent: Vec<Vec<u64>> = lists.collect();
    let arg = |i: usize| head[i] as usize;
    let (c, mut all) = (arg(0), was.clone());
    let said = match call {
        "fit" => return format!(" {}", answer(scope::kw_fit(c, arg(1), &was, &lent[0]))),
        "place" => {
            let (n, m, s) = (arg(1), arg(2), arg(3));
            let ((number, shift), row, back) =
                (scope::kw_shift_at(c, n, m, &was, s), scope::kw_row(c, n, m, &was, s), scope::kw_back(c, n, m, &was, s));
            let back = match back {
                (0, i) if i >= 65_536 => format!("0 entry {}", i - 65_536),
                (0, s) => format!("0 base {s}"),
                refused => answer(refused),
            };
            return format!(" {number} {shift}, {}, {back}", answer(row));
        }
        "read" => {
            let (m, j, layer, base) = (arg(1), arg(2), &lent[0], &lent[1]);
            let said = scope::kw_read(c, m, layer, base, j, &mut all);
            let (front, length) = scope::kw_view(c, m, layer, base, j, &all);
            let (name, from) = [("base", base), ("front", &all)][front as usize];
            return format!(" {}{} | {name} {length}{}", answer(said), left(&was, &all), shown(&from[..length as usize]));
        }
        "add" => scope::kw_add(c, arg(1), &mut all, &lent[0], &lent[1]),
        "strike" => scope::kw_strike(c, arg(1), &mut all, &lent[0], arg(2)),
        "change" => scope::kw_change(c, arg(1), &mut all, &lent[0], arg(2), arg(3), head[4]),
        "number" => scope::kw_renumber(c, arg(1), arg(2), &mut all, &lent[0], arg(3), head[4]),
        "combine" => scope::kw_combine(c, &lent[0], arg(1), &lent[1], arg(2), &lent[2], &mut all),
        "move" => scope::kw_move(c, &lent[0], arg(1), &mut all, arg(2), &lent[1]),
        other => panic!("no call {other}"),
    };
    format!(" {}{}", answer(said), left(&was, &all))
}

#[test]
fn edges() {
    let dir = Path::new(env!("CARGO_MANIFEST_DIR")).parent().unwrap().join("crates/edges");
    let [stdin, stdout] = ["stdin", "stdout"].map(|name| std::fs::read_to_string(dir.join(name)).unwrap());
    let mut wrong = Vec::new();
    let mut all = String::new();
    for line in stdin.lines() {
        let Some((case, said)) = line.split_once('=') else { continue };
        let want = printed(case);
        if !said.starts_with(&format!("{want}: ")) {
            wrong.push(format!("{case}={said}\n    the scope:{want}"));
        }
        all += &format!("{case}={want}\n");
    }
    assert!(wrong.is_empty(), "{} cases say otherwise\n{}", wrong.len(), wrong.join("\n"));
    let differs = all.lines().zip(stdout.lines()).find(|(x, y)| x != y);
    assert!(all == stdout, "stdout has other lines, from {differs:?} on; {} and {} of them", all.lines().count(), stdout.lines().count());
    for call in ["fit", "read", "place", "add", "strike", "change", "number", "combine", "move"] {
        assert!(all.lines().filter(|line| line.starts_with(call)).count() >= 20, "{call}");
    }
}
