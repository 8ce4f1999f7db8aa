//! The names that a document gives for the specification's terms: rows of the form | term | `path/to/file` | `name` |.
use std::path::{Component, Path};

/// A row: the term, the file where it is defined, and its name there.
#[derive(Debug, PartialEq, Eq)]
pub struct Row {
    pub term: String,
    pub file: String,
    pub name: String,
}

/// The rows of a document; other lines, and tables of another form, are left out.
pub fn rows(document: &str) -> Vec<Row> {
    document.lines().filter_map(row).collect()
}

fn row(line: &str) -> Option<Row> {
    let inner = line.trim().strip_prefix('|')?.strip_suffix('|')?;
    let cells: Vec<&str> = inner.split('|').map(str::trim).collect();
    let [term, file, name] = cells[..] else { return None };
    Some(Row { term: plain(term).to_string(), file: quoted(file)?.to_string(), name: quoted(name)?.to_string() })
}

/// The text between one pair of backquotes, which holds none.
fn quoted(cell: &str) -> Option<&str> {
    let text = cell.strip_prefix('`')?.strip_suffix('`')?;
    (!text.is_empty() && !text.contains('`')).then_some(text)
}

fn plain(cell: &str) -> &str {
    quoted(cell).unwrap_or(cell)
}

/// The row's file stands in the repository and defines the row's name.
pub fn check(root: &Path, row: &Row) -> Result<(), String> {
    let inside = Path::new(&row.file).components().all(|part| matches!(part, Component::Normal(_)));
    let path = root.join(&row.file);
    if !inside || !path.is_file() {
        return Err(format!("{}: there is no file {} in the repository", row.term, row.file));
    }
    let text = std::fs::read_to_string(&path).map_err(|error| format!("{}: {error}", row.file))?;
    match defines(&row.file, &text, &row.name) {
        true => Ok(()),
        false => Err(format!("{}: {} does not define {}", row.term, row.file, row.name)),
    }
}

/// A text of a file of this name defines the name; in a file of another kind it only has to occur.
pub fn defines(file: &str, text: &str, name: &str) -> bool {
    match Path::new(file).extension().and_then(|kind| kind.to_str()) {
        Some("antt") => text.lines().any(|line| antt_defines(line, name)),
        Some("rt") => text.lines().any(|line| rt_defines(line, name)),
        _ => text.contains(name),
    }
}

/// `name :`, after words like `pub` or none, or `record name` or `data name`.
fn antt_defines(line: &str, name: &str) -> bool {
    let mut words = line.split_whitespace().skip_while(|word| ["pub", "abbrev", "unfoldable"].contains(word));
    match words.next() {
        Some("record" | "data") => words.next() == Some(name),
        Some(word) => word == name && words.next() == Some(":"),
        None => false,
    }
}

/// `fn name`, `struct name`, `enum name` or `const name`, with nothing of a longer name behind it.
fn rt_defines(line: &str, name: &str) -> bool {
    let code = line.split("//").next().unwrap_or("");
    let words: Vec<&str> = code.split(|c: char| !c.is_alphanumeric() && c != '_').filter(|word| !word.is_empty()).collect();
    words.windows(2).any(|pair| ["fn", "struct", "enum", "const"].contains(&pair[0]) && pair[1] == name)
}
