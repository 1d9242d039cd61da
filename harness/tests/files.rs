//! The file calls and the request answer alike, on a hundred thousand files and a seed of the day, and every refusal is met.

#[test]
fn files() {
    let seed = std::time::SystemTime::now().duration_since(std::time::UNIX_EPOCH).map_or(1, |d| d.as_secs());
    println!("seed {seed}");
    let report = harness::file::run(seed, 100_000);
    report.print();
    assert_eq!(report.missing(), None);
}
