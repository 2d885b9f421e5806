//! The comparison of `src/bin/compare.rs` with fewer calls.

#[test]
fn library_and_paper_agree() {
    let coverage = makxirund::compare::run(7, 60_000);
    print!("{coverage}");
    assert!(coverage.calls() >= 60_000);
    assert_eq!(coverage.unmet(), [""; 0]);
    assert!(coverage.longest_chain() >= 16);
}
