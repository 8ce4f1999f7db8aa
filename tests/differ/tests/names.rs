//! The specification's terms have the names, in the files, that docs/ARCHITECTURE.md gives for them.
use differ::names::{check, defines, rows, Row};
use differ::root;
use std::fs::read_to_string;

const REFUSALS: [&str; 9] = ["LIMIT", "SHORT", "VARIABLE", "CLAUSE", "TABLE", "REDUCED", "NODES", "CLAUSES", "SHEET"];
const LEAST_ROWS: usize = 20;

/// What is wrong with a document's rows, if anything.
fn objections(document: &str) -> Vec<String> {
    let rows = rows(document);
    let mut found: Vec<String> = rows.iter().filter_map(|row| check(&root(), row).err()).collect();
    if rows.len() < LEAST_ROWS {
        found.push(format!("{} rows, at least {LEAST_ROWS} are wanted", rows.len()));
    }
    let missing = REFUSALS.iter().filter(|name| !rows.iter().any(|row| row.term == **name));
    found.extend(missing.map(|name| format!("{name} has no row")));
    found
}

#[test]
fn every_term_of_the_architecture_is_defined_where_it_says() {
    let document = read_to_string(root().join("docs/ARCHITECTURE.md")).unwrap();
    assert_eq!(objections(&document), Vec::<String>::new());
}

fn row(term: &str, file: &str, name: &str) -> Row {
    Row { term: term.to_string(), file: file.to_string(), name: name.to_string() }
}

#[test]
fn rows_are_read() {
    let document = "# Title\n| Term | File | Name |\n|---|---|---|\n| LIMIT | `a/b.antt` | `LIMIT` |\n| `SHORT` |`c.rt`|`SHORT` |\n\
                    | a crate | what it holds |\n| no quotes | a.rt | b |\n| one | `two` | `three` | `four` |\n| x | `` | `y` |\n";
    assert_eq!(rows(document), [row("LIMIT", "a/b.antt", "LIMIT"), row("SHORT", "c.rt", "SHORT")]);
}

#[test]
fn definitions_are_told_from_other_lines() {
    let antt = "use lib.{other}\n-- spoken : of\nabbrev pub LIMIT : ℕ\nLIMIT = 1\nunfoldable pub order : List ℕ\npub record Node (n : ℕ) : Type 0 where\n  \
                pub mark : ℕ\npub data Verdict : Type 0 where\n  refused : ℕ → Verdict\nlaw : order ≡ order\n";
    for name in ["LIMIT", "order", "Node", "mark", "Verdict", "refused", "law"] {
        assert!(defines("a.antt", antt, name), "{name}");
    }
    for name in ["other", "spoken", "of", "LIM", "List", "Type", "n", "record"] {
        assert!(!defines("a.antt", antt, name), "{name}");
    }
    let rt = "pub const LIMIT: u8 = 1;\npub struct Refusal {\n    pub fn set_value(self) -> Truth {\n// fn spoken\npub(crate) enum Truth {\nlet x = called(y);\n";
    for name in ["LIMIT", "Refusal", "set_value", "Truth"] {
        assert!(defines("a.rt", rt, name), "{name}");
    }
    for name in ["spoken", "called", "set", "u8", "x", "LIMI"] {
        assert!(!defines("a.rt", rt, name), "{name}");
    }
    assert!(defines("a.sh", "run this", "this") && !defines("a.sh", "run this", "that"));
}

#[test]
fn wrong_rows_are_objected_to() {
    let good = row("LIMIT", "crates/refusal/specs/Number.antt", "LIMIT");
    assert_eq!(check(&root(), &good), Ok(()));
    for wrong in [row("a", "crates/refusal/specs/Number.antt", "LIMITS"), row("b", "crates/refusal/specs", "LIMIT"), row("c", "absent.rt", "LIMIT")]
    {
        assert!(check(&root(), &wrong).is_err(), "{wrong:?}");
    }
    assert!(check(&root(), &row("d", "tests/../crates/refusal/specs/Number.antt", "LIMIT")).is_err());
}

#[test]
fn a_document_with_too_few_rows_is_objected_to() {
    let line = |term: &str| format!("| {term} | `crates/refusal/specs/Number.antt` | `{term}` |\n");
    let nine: String = REFUSALS.iter().map(|term| line(term)).collect();
    let full = nine.clone() + &line("LIMIT").repeat(LEAST_ROWS - 9);
    assert_eq!(objections(&full), Vec::<String>::new());
    assert_eq!(objections(&nine).len(), 1);
    assert_eq!(objections(&full.replace("| SHEET |", "| sheets |")), ["SHEET has no row"]);
    assert_eq!(objections(&full.replacen("`LIMIT`", "`absent`", 1)).len(), 1);
}
