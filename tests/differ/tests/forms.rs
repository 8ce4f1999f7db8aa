//! docs/DECISIONS.md says at which line each of the named forms stands: it does.
use differ::root;
use std::fs::read_to_string;

/// What a line that is named must hold, in the order of the page.
const FORMS: [&str; 11] = [
    "match kind",
    "count_ones",
    "leading_zeros",
    "trailing_zeros",
    "let Inspection::Sound(",
    "fn choose_posting",
    "self.node(next, cut.low)",
    "enum Lookup",
    "struct BddVariable(",
    "struct BddPointer(",
    "struct BddPathIterator",
];

/// The lines that a page names as `FILE:LINE`.
fn named(page: &str) -> Vec<(&str, usize)> {
    page.split('`')
        .skip(1)
        .step_by(2)
        .filter_map(|text| Some((text.rsplit_once(':')?.0, text.rsplit_once(".rt:")?.1.parse().ok()?)))
        .collect()
}

fn objection((file, line): (&str, usize), form: &str) -> Option<String> {
    let text = read_to_string(root().join(file)).unwrap_or_default();
    let there = text.lines().nth(line - 1).unwrap_or_default();
    (!there.contains(form)).then(|| format!("{file}:{line} has no '{form}': {there}"))
}

#[test]
fn the_named_forms_stand_where_the_page_says() {
    let page = read_to_string(root().join("docs/DECISIONS.md")).unwrap();
    let lines = named(&page);
    assert_eq!(lines.len(), FORMS.len(), "{lines:?}");
    let objections: Vec<String> = lines.iter().zip(FORMS).filter_map(|(&line, form)| objection(line, form)).collect();
    assert!(objections.is_empty(), "{objections:#?}");
}

#[test]
fn another_line_is_objected_to() {
    let line = named("`crates/table/src/lib.rt:1`")[0];
    assert!(objection(line, "struct BddPointer(").is_some());
}
