//! docs/ENTRIES.md is true and complete: what each row names is there, and the rows are the exported entries with the walk's own.
use differ::names::defines;
use differ::root;
use std::collections::BTreeSet;
use std::fs::read_to_string;

const ENTRIES: usize = 36;
const CELLS: usize = 6;
/// The walk's struct cannot cross: its entries stand in the page, and what crosses in their stead does not.
const WALK: [&str; 3] = ["new", "next", "refusal"];
const STAND_INS: [&str; 2] = ["walk_check", "kth_step"];

/// The texts between backquotes of a cell.
fn quoted(cell: &str) -> Vec<&str> {
    cell.split('`').skip(1).step_by(2).collect()
}

fn rows(document: &str) -> Vec<Vec<Vec<&str>>> {
    document.lines().filter(|line| line.starts_with("| `")).map(|line| line.trim_matches('|').split(" | ").map(quoted).collect()).collect()
}

/// A file of the repository defines the names.
fn defined(file: &str, names: &[&str]) -> Result<(), String> {
    let text = read_to_string(root().join(file)).map_err(|error| format!("{file}: {error}"))?;
    match names.iter().find(|name| !defines(file, &text, name)) {
        Some(name) => Err(format!("{file} does not define {name}")),
        None if names.is_empty() => Err(format!("nothing is named of {file}")),
        None => Ok(()),
    }
}

/// What is wrong with a row, if anything.
fn check(row: &[Vec<&str>]) -> Result<(), String> {
    let [entry, contract, definition, theorems, edits, test] = row else { return Err(format!("{row:?}: {CELLS} cells are wanted")) };
    defined(contract[0], entry)?;
    defined(definition[0], &definition[1..])?;
    defined(theorems[0], &theorems[1..])?;
    if edits.len() < 2 {
        return Err(format!("{}: two must-fail edits are wanted", entry[0]));
    }
    for (krate, edit) in edits.iter().map(|edit| edit.split_once('/').unwrap_or((edit, ""))) {
        if !root().join(format!("crates/{krate}/must-fail/{edit}.edit")).is_file() {
            return Err(format!("{}: there is no edit {edit} in {krate}", entry[0]));
        }
    }
    let tests = read_to_string(root().join("tests/differ/tests").join(test[0])).map_err(|error| format!("{}: {error}", test[0]))?;
    tests.contains("#[test]").then_some(()).ok_or(format!("{} has no test", test[0]))
}

fn exported() -> BTreeSet<String> {
    let text = read_to_string(root().join("crates/exports/src/lib.rt")).unwrap();
    let name = |line: &str| Some(line.split_once("fn collartug_")?.1.split(['(', '<']).next()?.to_string());
    text.lines().filter_map(name).collect()
}

#[test]
fn every_entry_is_there_with_all_that_its_row_names() {
    let document = read_to_string(root().join("docs/ENTRIES.md")).unwrap();
    let rows = rows(&document);
    let objections: Vec<String> = rows.iter().filter_map(|row| check(row).err()).collect();
    assert_eq!(objections, Vec::<String>::new());
    let named: BTreeSet<String> = rows.iter().map(|row| row[0][0].to_string()).filter(|name| !WALK.contains(&&name[..])).collect();
    let wanted: BTreeSet<String> = exported().into_iter().filter(|name| !STAND_INS.contains(&&name[..])).collect();
    assert_eq!((rows.len(), named), (ENTRIES, wanted));
}

#[test]
fn wrong_rows_are_objected_to() {
    let good = "| `inspect` | `crates/table/src/lib.rt` | `crates/table/specs/Inspection.antt`: `inspects` | `crates/demands/proofs/Demand1.antt`: `inspect-sound` | \
                `table/inspect-equal-marks`, `table/inspect-own-link` | `tables.rs` |";
    assert_eq!(check(&rows(good)[0]), Ok(()));
    for (from, to) in [
        ("`inspect` |", "`inspects` |"),
        (": `inspects`", ": `inspecting`"),
        (": `inspect-sound`", ""),
        ("inspect-sound", "inspect-loud"),
        ("table/inspect-own-link", "table/none"),
        ("`table/inspect-equal-marks`, ", ""),
        ("tables.rs", "tabled.rs"),
    ] {
        assert!(check(&rows(&good.replace(from, to))[0]).is_err(), "{from} as {to}");
    }
}
