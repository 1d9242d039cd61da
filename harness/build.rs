// Builds the archive that C links (`rt lib`, in crates/card) and the plain C version beside it, and links both.
use std::path::Path;
use std::process::Command;

fn run(program: &str, args: &[&str], dir: &Path) {
    let status = Command::new(program).args(args).current_dir(dir).status().unwrap_or_else(|e| panic!("{program}: {e}"));
    assert!(status.success(), "{program} {args:?} failed");
}

fn main() {
    let here = std::env::var("CARGO_MANIFEST_DIR").unwrap();
    let top = Path::new(&here).parent().unwrap().to_path_buf();
    let out = std::env::var("OUT_DIR").unwrap();
    println!("cargo:rerun-if-changed=c");
    // all of a crate but what rt makes of it, in out/
    for it in std::fs::read_dir(top.join("crates")).unwrap() {
        for part in ["src", "specs", "proofs"] {
            let part = it.as_ref().unwrap().path().join(part);
            if part.exists() {
                println!("cargo:rerun-if-changed={}", part.display());
            }
        }
    }
    println!("cargo:rerun-if-changed=../crates.txt");
    run("rt", &["lib"], &top.join("crates/card"));
    let objects = ["plain", "file", "control"].map(|name| {
        let object = format!("{out}/{name}.o");
        // loops of one line of code and less take twice the time where they straddle two: none of plain C's does
        let flags = ["-O3", "-falign-functions=64", "-falign-loops=64", "-c", &format!("c/{name}.c"), "-o", &object];
        run("gcc", &flags, Path::new(&here));
        object
    });
    run("ar", &["rcs", &format!("{out}/libplain.a"), &objects[0], &objects[1], &objects[2]], Path::new(&here));
    println!("cargo:rustc-link-search=native={}/crates/card/out", top.display());
    println!("cargo:rustc-link-search=native={out}");
    println!("cargo:rustc-link-lib=static=card");
    println!("cargo:rustc-link-lib=static=plain");
}
