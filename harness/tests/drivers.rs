//! The examples in C build against the header and the archive without a warning, and run; what `renumber.c` prints was worked out by hand.

use std::path::Path;
use std::process::Command;

/// Builds and runs an example, and answers what it prints.
fn run(name: &str, args: &[&str]) -> String {
    let top = Path::new(env!("CARGO_MANIFEST_DIR")).parent().unwrap();
    let program = Path::new(env!("CARGO_TARGET_TMPDIR")).join(name);
    let built = Command::new("gcc")
        .args(["-std=c11", "-O2", "-Wall", "-Wextra", "-Wpedantic", "-Werror", "-Iinclude"])
        .args([&format!("examples/{name}.c"), "crates/card/out/libcard.a", "-o"])
        .arg(&program)
        .current_dir(top)
        .output()
        .unwrap();
    assert!(built.status.success(), "{}", String::from_utf8_lossy(&built.stderr));
    let output = Command::new(&program).args(args).output().unwrap();
    assert!(output.status.success() && output.stderr.is_empty(), "{name}");
    String::from_utf8(output.stdout).unwrap()
}

const RENUMBERED: &str = "\
add group 25                                 done, m is 1
source of row 1 (group 20)                   done, m is 2
mask of row 1 (group 20)                     done, m is 3
on a copy: strike row 4 (group 40)           done, m is 4
on a copy: add it again as 45                refused 9, m stays 4
the copy has lost the group:
    0 10 1 1
    1 20 9 32
    2 25 7 16
    3 30 2 4
renumber row 4 (group 40) to 45              refused 9, m stays 3
the layer has it as it stood:
    0 10 1 1
    1 20 9 32
    2 25 7 16
    3 30 2 4
    4 40 2 8
strike row 4 (group 40)                      done, m is 4
renumber row 2 (group 25) to 5               done, m is 4
renumber row 2 (group 20) to 35              done, m is 4
renumber row 3 (group 35) to its own number  done, m is 4
renumber row 3 (group 35) to 30, shown       refused 7, m stays 4
renumber row 3 (group 35) back to 20         done, m is 4
renumber row 4, which is not shown           refused 5, m stays 4
group 20 is back with its source and mask, group 25 is group 5:
    0 5 7 16
    1 10 1 1
    2 20 9 32
    3 30 2 4
";

#[test]
fn renumber() {
    assert_eq!(run("renumber", &[]), RENUMBERED);
}

#[test]
fn driver() {
    let printed = run("driver", &[]);
    assert!(printed.contains("    2 30 2 64\n") && printed.contains("a third desk sets mask 6             refused 8, place 0\n"), "{printed}");
}

#[test]
fn morning() {
    let file = Path::new(env!("CARGO_TARGET_TMPDIR")).join("night.layer");
    let printed = run("morning", &[file.to_str().unwrap()]);
    assert!(printed.contains("check 0, entries 2, columns 3, base rows 4\n") && printed.contains("check 12,"), "{printed}");
}
