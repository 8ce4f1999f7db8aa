//! The oracle holds the supplied Rust unchanged, and its `lib.rs` differs only where it says so.
use differ::root;
use std::fs::{read, read_to_string};

#[test]
fn five_files_are_the_supplied_ones() {
    for name in [
        "op_function.rs",
        "_impl_bdd_partial_valuation.rs",
        "_impl_bdd_path_iterator.rs",
        "_impl_bdd/_impl_dnf.rs",
        "_impl_bdd/_impl_cnf.rs",
    ] {
        let supplied = read(root().join("tests/supplied/src").join(name)).unwrap();
        let used = read(root().join("tests/oracle/src").join(name)).unwrap();
        assert!(supplied == used, "{name} is not the supplied file");
    }
}

/// A line of the supplied `lib.rs` is kept, or stands behind a mark that says why it does not.
#[test]
fn lib_rs_differs_only_where_marked() {
    let plain = |line: &str| line.trim_start_matches('/').trim().to_string();
    let kept = |line: &str| {
        let line = line.trim_start_matches("// [oracle: not supplied] ").trim_start_matches("// [oracle: left out] ");
        plain(line).replace("```ignore", "```rust")
    };
    let supplied: Vec<_> = read_to_string(root().join("tests/supplied/src/lib.rs")).unwrap().lines().map(plain).collect();
    let used: Vec<_> = read_to_string(root().join("tests/oracle/src/lib.rs"))
        .unwrap()
        .lines()
        .filter(|line| !line.contains("[oracle: added]"))
        .map(kept)
        .collect();
    assert_eq!(supplied, used);
}
