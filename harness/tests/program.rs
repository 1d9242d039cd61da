//! The printing program prints what the scope says, for every example, in whatever blocks its input comes; and it says so where it cannot read or write.

use harness::scope;
use harness::Rng;
use std::fs;
use std::io::Write;
use std::path::{Path, PathBuf};
use std::process::{Command, Output, Stdio};
use std::sync::Once;

static BUILT: Once = Once::new();

fn top() -> PathBuf {
    Path::new(env!("CARGO_MANIFEST_DIR")).parent().unwrap().to_path_buf()
}

/// The script that the operator runs. The first use builds the program.
fn script() -> Command {
    let path = top().join("kwadirumpe");
    BUILT.call_once(|| {
        let built = Command::new(&path).stdin(Stdio::null()).output().unwrap();
        assert!(built.status.success(), "{}", String::from_utf8_lossy(&built.stderr));
    });
    Command::new(path)
}

fn number(field: &[u8]) -> Option<u64> {
    if field.is_empty() || field.len() > 20 || !field.iter().all(u8::is_ascii_digit) {
        return None;
    }
    std::str::from_utf8(field).ok()?.parse().ok()
}

/// What the program is to print, by the scope's words and the scope by brute force.
fn printed(input: &[u8]) -> String {
    let mut lines: Vec<&[u8]> = input.split(|b| *b == b'\n').collect();
    if lines.last().is_some_and(|l| l.is_empty()) {
        lines.pop();
    }
    let (mut rows, mut edited, mut m, mut raw) = (Vec::<Vec<u64>>::new(), false, 0, vec![0; 2560]);
    let mut text = String::new();
    for (i, line) in lines.iter().enumerate() {
        let fields: Vec<&[u8]> = line.split(|b| *b == b' ').collect();
        let values: Option<Vec<u64>> = fields[1..].iter().map(|f| number(f)).collect();
        let keys: Vec<u64> = rows.iter().map(|r| r[0]).collect();
        let said = match (fields[0], values.as_deref()) {
            (b"B", Some([g, s, p])) if !edited && rows.len() < 512 => {
                if keys.last().is_some_and(|k| g <= k) {
                    Some(3)
                } else {
                    rows.push(vec![*g, *s, *p]);
                    Some(0)
                }
            }
            (b"+", Some([g, s, p])) => Some(scope::kw_add(3, m, &mut raw, &keys, &[*g, *s, *p])).map(|a| entered(a, &mut m, &mut edited)),
            (b"-", Some([r])) => Some(scope::kw_strike(3, m, &mut raw, &keys, *r as usize)).map(|a| entered(a, &mut m, &mut edited)),
            (b"=", Some([r, j, v])) => {
                let answer = scope::kw_change(3, m, &mut raw, &keys, *r as usize, *j as usize, *v);
                Some(entered(answer, &mut m, &mut edited))
            }
            (b"!", Some([r, g])) => {
                let answer = scope::kw_renumber(3, rows.len(), m, &mut raw, &scope::whole_of(3, &rows), *r as usize, *g);
                Some(entered(answer, &mut m, &mut edited))
            }
            _ => None,
        };
        match said {
            None => text += &format!("? {}\n", i + 1),
            Some(0) => (),
            Some(k) => text += &format!("refused {k} {}\n", i + 1),
        }
    }
    text += "row group source mask\n";
    for (i, r) in scope::table(&scope::entries(3, m, &raw), &rows).iter().enumerate() {
        text += &format!("{i} {} {} {}\n", r[0], r[1], r[2]);
    }
    text
}

fn entered(answer: scope::Pair, m: &mut usize, edited: &mut bool) -> u64 {
    *edited = true;
    if answer.0 == 0 {
        *m = answer.1 as usize;
    }
    answer.0
}

/// The program itself, its input in blocks of these sizes.
fn run(input: &[u8], mut size: impl FnMut() -> usize) -> String {
    let mut child = Command::new(top().join("crates/print/out/print")).stdin(Stdio::piped()).stdout(Stdio::piped()).spawn().unwrap();
    let mut pipe = child.stdin.take().unwrap();
    let reader = std::thread::spawn(move || child.wait_with_output().unwrap());
    let mut rest = input;
    while !rest.is_empty() {
        let (block, more) = rest.split_at(size().clamp(1, rest.len()));
        pipe.write_all(block).unwrap();
        rest = more;
    }
    drop(pipe);
    let output = reader.join().unwrap();
    assert!(output.status.success());
    String::from_utf8(output.stdout).unwrap()
}

#[test]
fn examples() {
    let mut met = 0;
    for entry in fs::read_dir(top().join("examples")).unwrap() {
        let path = entry.unwrap().path();
        if path.extension().is_some_and(|e| e == "in") {
            let output = script().arg(&path).output().unwrap();
            assert!(output.status.success() && output.stderr.is_empty(), "{path:?}");
            let stored = fs::read_to_string(path.with_extension("out")).unwrap();
            assert_eq!(String::from_utf8(output.stdout).unwrap(), stored, "{path:?}");
            assert_eq!(printed(&fs::read(&path).unwrap()), stored, "{path:?}");
            met += 1;
        }
    }
    assert!(met >= 7);
}

#[test]
fn stored_input() {
    let input = fs::read(top().join("crates/print/stdin")).unwrap();
    assert_eq!(printed(&input), fs::read_to_string(top().join("crates/print/stdout")).unwrap());
    assert!(input.len() > 2 * 4096 && input.last() != Some(&b'\n'));
    for edge in [4096, 8192] {
        assert!(input[edge - 1] != b'\n' && input[edge] != b'\n');
    }
}

/// A line that is mostly readable, and sometimes long, cut or with another byte in it.
fn line(rng: &mut Rng, base: u64) -> Vec<u8> {
    let mut text = match rng.below(11) {
        0..=2 => format!("B {} {} {}", base, rng.below(9), rng.below(99)),
        3 | 4 => format!("+ {} {} {}", rng.below(400), rng.below(9), rng.below(99)),
        5 => format!("- {}", rng.below(40)),
        6 | 7 => format!("= {} {} {}", rng.below(40), rng.below(4), rng.next()),
        8 | 9 => format!("! {} {}", rng.below(40), rng.below(400)),
        _ => "7".repeat(rng.below(200)),
    }
    .into_bytes();
    if rng.one_in(12) && !text.is_empty() {
        let at = rng.below(text.len());
        text[at] = rng.next() as u8;
    }
    text
}

#[test]
fn any_blocks() {
    script();
    let seed = std::time::SystemTime::now().duration_since(std::time::UNIX_EPOCH).map_or(1, |d| d.as_secs());
    println!("seed {seed}");
    let mut rng = Rng::new(seed);
    for _ in 0..60 {
        let mut input = Vec::new();
        for i in 0..rng.below(400) {
            input.extend(line(&mut rng, i as u64 * 3));
            input.push(b'\n');
        }
        if rng.one_in(2) {
            input.extend(line(&mut rng, 9999));
        }
        let most = [1, 7, 64, 4096, 5000, 1 << 20][rng.below(6)];
        let expected = printed(&input);
        assert_eq!(run(&input, || 1 + rng.below(most)), expected);
    }
}

/// It said something on standard error and ended with 1.
fn failed(output: &Output) -> bool {
    output.status.code() == Some(1) && output.stderr.starts_with(b"kwadirumpe: ") && output.stderr.ends_with(b"\n")
}

#[test]
fn failures() {
    let dir = fs::File::open(top()).unwrap();
    let unread = script().stdin(dir).output().unwrap();
    assert!(failed(&unread) && unread.stdout.is_empty());
    assert!(failed(&script().arg(top()).output().unwrap()));
    assert!(failed(&script().arg(top().join("no such file")).output().unwrap()));
    let closed = Command::new("sh").args(["-c", "exec \"$0\" <&-"]).arg(top().join("kwadirumpe")).output().unwrap();
    assert!(failed(&closed) && closed.stdout.is_empty());
    for name in ["scope", "full-layer"] {
        let full = fs::File::create("/dev/full").unwrap();
        let unwritten = script().arg(top().join(format!("examples/{name}.in"))).stdout(full).output().unwrap();
        assert!(failed(&unwritten), "{name}");
    }
}
