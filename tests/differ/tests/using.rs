//! The pages for users: every command of README.md and docs/USING.md is run, in order, in a copy of the repository, and shows what its page
//! shows; the tool objects to wrong use by file and line; the header names every export; the wrapper's own tests pass.
use biodivine_lib_bdd::{Bdd, BddPartialValuation, BddVariable, BddVariableSet};
use differ::root;
use std::collections::BTreeSet;
use std::fs::{copy, create_dir_all, read, read_dir, read_to_string, remove_dir_all, write};
use std::os::unix::fs::PermissionsExt;
use std::path::{Path, PathBuf};
use std::process::{Command, Output};

const PAGES: [&str; 2] = ["README.md", "docs/USING.md"];
const REFUSALS: [&str; 9] = ["LIMIT", "SHORT", "VARIABLE", "CLAUSE", "TABLE", "REDUCED", "NODES", "CLAUSES", "SHEET"];

/// A folder that goes when it is done with.
struct Folder(PathBuf);

impl Folder {
    fn new(name: &str) -> Folder {
        let path = std::env::temp_dir().join(format!("collartug-{name}-{}", std::process::id()));
        create_dir_all(&path).unwrap();
        Folder(path)
    }

    /// A copy of the repository as a clone would have it, with the programs and the library that the gate made.
    fn of_repository() -> Folder {
        let folder = Folder::new("copy");
        copy_files(&root(), &folder.0);
        let made = root().join("target/native");
        if made.is_dir() {
            copy_files(&made, &folder.0.join("target/native"));
        }
        folder
    }

    fn run(&self, command: &str) -> Output {
        Command::new("sh").arg("-c").arg(format!("{{ {command}\n}} 2>&1")).current_dir(&self.0).output().unwrap()
    }
}

impl Drop for Folder {
    fn drop(&mut self) {
        let _ = remove_dir_all(&self.0);
    }
}

/// All files but those that are made, and the history.
fn copy_files(from: &Path, to: &Path) {
    create_dir_all(to).unwrap();
    for entry in read_dir(from).unwrap().map(Result::unwrap) {
        let (name, target) = (entry.file_name(), to.join(entry.file_name()));
        if name == "target" || name == "out" || name == ".git" {
            continue;
        }
        if entry.file_type().unwrap().is_dir() {
            copy_files(&entry.path(), &target);
        } else {
            copy(entry.path(), target).unwrap();
        }
    }
}

/// A command of a page and what the page shows of its output.
#[derive(Debug, PartialEq)]
struct Shown {
    line: usize,
    command: String,
    output: String,
}

/// The commands of a page's console blocks.
fn commands(page: &str) -> Vec<Shown> {
    let mut found: Vec<Shown> = Vec::new();
    let mut inside = false;
    for (i, text) in page.lines().enumerate() {
        if text.starts_with("```") {
            inside = text == "```console";
        } else if let (true, Some(command)) = (inside, text.strip_prefix("$ ")) {
            found.push(Shown { line: i + 1, command: command.to_string(), output: String::new() });
        } else if inside {
            let last = found.last_mut().expect("a console block begins with a command");
            last.output.push_str(text);
            last.output.push('\n');
        }
    }
    found
}

#[test]
fn commands_are_read() {
    let page = "text\n$ not this\n```console\n$ one\nshown\n\nmore\n$ two\n```\nshown\n```\n$ nor this\n```\n```console\n$ three\n```\n";
    let command = |line, command: &str, output: &str| Shown { line, command: command.to_string(), output: output.to_string() };
    assert_eq!(commands(page), [command(4, "one", "shown\n\nmore\n"), command(8, "two", ""), command(15, "three", "")]);
}

fn parse(text: &str) -> BddPartialValuation {
    let cells = text.chars().enumerate().filter(|(_, cell)| *cell != '-');
    let values: Vec<_> = cells.map(|(mark, cell)| (BddVariable::from_index(mark), cell == '1')).collect();
    BddPartialValuation::from_values(&values)
}

fn text(clause: &BddPartialValuation, n: u16) -> String {
    let cell = |mark| clause.get_value(BddVariable::from_index(mark)).map_or('-', |value| if value { '1' } else { '0' });
    (0..usize::from(n)).map(cell).collect()
}

/// The marks and the oracle's table of one of the example lists.
fn example(name: &str) -> (u16, Bdd) {
    let page = read_to_string(root().join("examples").join(name)).unwrap();
    let mut lines = page.lines().map(|line| line.split('#').next().unwrap().trim()).filter(|line| !line.is_empty());
    let n = lines.next().unwrap().strip_prefix("dnf ").unwrap().parse().unwrap();
    (n, BddVariableSet::new_anonymous(n).mk_dnf(&lines.map(parse).collect::<Vec<_>>()))
}

/// What the program prints of an example, by the oracle.
fn expected(name: &str) -> String {
    let (n, table) = example(name);
    let mut page = format!("vars {n}\nnodes {}\n", table.size());
    for (kind, clauses) in [("dnf", table.to_dnf()), ("cnf", table.to_cnf())] {
        page.push_str(&format!("{kind} {}\n", clauses.len()));
        page.extend(clauses.iter().map(|clause| text(clause, n) + "\n"));
    }
    page
}

#[test]
fn every_command_shows_what_its_page_shows() {
    let folder = Folder::of_repository();
    let mut ran = 0;
    for page in PAGES {
        for shown in commands(&read_to_string(root().join(page)).unwrap()) {
            let output = folder.run(&shown.command);
            assert_eq!(String::from_utf8_lossy(&output.stdout), shown.output, "{page}:{}: {}", shown.line, shown.command);
            ran += 1;
        }
    }
    assert!(ran >= 15, "{ran} commands");
    // What the pages say besides: the programs' lists are the oracle's, and the picture in README.md is the one that is drawn.
    for name in ["cell", "pocket"] {
        assert_eq!(read_to_string(folder.0.join(format!("{name}.out"))).unwrap(), expected(&format!("{name}.txt")));
    }
    let drawn = read_to_string(folder.0.join("cell.svg")).unwrap();
    assert_eq!(drawn, read_to_string(root().join("examples/cell.svg")).unwrap());
    wrapper_and_header(&folder);
}

/// In the same copy, so that nothing is compiled twice.
fn wrapper_and_header(folder: &Folder) {
    let tested = folder.run("cargo test -q --offline --manifest-path bindings/rust/Cargo.toml");
    assert!(tested.status.success(), "{}", String::from_utf8_lossy(&tested.stdout));
    for standard in ["c99", "c11"] {
        let strict = format!("gcc -std={standard} -pedantic -Wall -Wextra -Werror -fsyntax-only -Iinclude examples/post.c");
        assert!(folder.run(&strict).status.success(), "{standard}");
    }
}

#[test]
fn the_short_list_of_the_readme_is_the_oracles() {
    let (n, table) = example("cell.txt");
    let clauses: String = table.to_optimized_dnf().iter().map(|clause| text(clause, n) + "\n").collect();
    let shown = commands(&read_to_string(root().join("README.md")).unwrap());
    let short = shown.iter().find(|shown| shown.command == "tools/proved short cell.sheet").unwrap();
    assert_eq!(short.output, format!("dnf {n}\n{clauses}"));
}

/// The names that follow a word, up to a bracket.
fn names<'a>(page: &'a str, before: &str) -> Vec<&'a str> {
    let mut found: Vec<&str> = page.split(before).skip(1).map(|rest| rest.split(['(', '<']).next().unwrap()).collect();
    found.sort();
    found
}

#[test]
fn the_header_names_every_export_and_no_other() {
    let exports = read_to_string(root().join("crates/exports_c/src/lib.rt")).unwrap();
    let header = read_to_string(root().join("include/collartug.h")).unwrap();
    assert_eq!(names(&header, "uint64_t collartug_"), names(&exports, "extern \"C\" fn collartug_"));
}

#[test]
fn refusals_have_their_numbers_on_every_page() {
    let file = |name: &str| read_to_string(root().join(name)).unwrap();
    let (using, header, tool, wrapper) =
        (file("docs/USING.md"), file("include/collartug.h"), file("tools/lib/forms.py"), file("bindings/rust/src/refusal.rs"));
    for (name, number) in REFUSALS.iter().zip(1..) {
        assert!(using.contains(&format!("\n| {number} | {name} |")), "USING.md: {name}");
        assert!(header.contains(&format!("COLLARTUG_{name} = {number}")), "collartug.h: {name}");
        assert!(tool.contains(&format!("    {number}: (\"{name}\",")), "forms.py: {name}");
        assert!(wrapper.contains(&format!("pub const {name}: u8 = {number};")), "refusal.rs: {name}");
    }
}

/// Runs the tool on a file `x`, in a folder of its own.
fn tool(folder: &Folder, content: &[u8], words: &str) -> Output {
    write(folder.0.join("x"), content).unwrap();
    folder.run(&format!("'{}' {words}", root().join("tools/sheet").display()))
}

#[test]
fn sheets_are_shown_as_they_were_written() {
    let folder = Folder::new("shown");
    for page in ["dnf 0\n", "dnf 0\n\n", "cnf 2\n", "dnf 3\n1-0\n---\n", "cnf 2\n10\n10\n"] {
        assert_eq!(String::from_utf8(tool(&folder, page.as_bytes(), "make x > y; exec cat y").stdout).unwrap().len() % 16, 0, "{page}");
        let shown = folder.run(&format!("'{}' show y", root().join("tools/sheet").display()));
        assert_eq!(String::from_utf8(shown.stdout).unwrap(), page);
    }
    let clause = tool(&folder, b"dnf 3\n1-0\n", "make x").stdout;
    let words: Vec<u32> = clause.chunks_exact(4).map(|word| u32::from_le_bytes(word.try_into().unwrap())).collect();
    assert_eq!(words, [1, 3, 1, 32, 0, 0, 48, 1, 0b101, 0, 0b001, 0]);
    let table = tool(&folder, &read(root().join("examples/xor.txt")).unwrap(), "make x").stdout;
    let words: Vec<u32> = table.chunks_exact(4).map(|word| u32::from_le_bytes(word.try_into().unwrap())).collect();
    assert_eq!(words, [1, 2, 0, 0, 5, 32, 92, 3, 2, 0, 0, 2, 1, 1, 1, 0, 1, 1, 1, 0, 0, 2, 3]);
}

#[test]
fn wrong_use_is_told_by_file_and_line() {
    let folder = Folder::new("wrong");
    let begins = "a text begins with 'dnf N', 'cnf N' or 'table N'";
    let wants = "'make' wants a text that begins with 'dnf N', 'cnf N' or 'table N'";
    let many = format!("dnf 2\n{}", "11\n".repeat(1025));
    let long = format!("dnf 3\n{}", "0".repeat(5000));
    let areas = "is not a number such as 6 or 6.5 (at most 15 digits before and behind the point)";
    let commands = "it is one of make, show, draw, dot, areas; tools/sheet help";
    let wrong: [(&str, &str, &str); 81] = [
        ("", "make x", &format!("x: nothing in it; {begins}")),
        ("hello", "make x", &format!("x:1: 'hello': {begins}")),
        ("# remark\ndnf x", "make x", "x:2: the number of marks is 'x', not a whole number"),
        ("dnf -1", "make x", "x:1: the number of marks is '-1', not a whole number"),
        ("dnf 3.0", "make x", "x:1: the number of marks is '3.0', not a whole number"),
        ("dnf 99999999999999999999999", "make x", "x:1: 99999999999999999999999 marks; at most 60"),
        ("dnf", "make x", &format!("x:1: 'dnf': {begins}")),
        ("dnf 3 4", "make x", &format!("x:1: 'dnf 3 4': {begins}")),
        ("DNF 3", "make x", &format!("x:1: 'DNF 3': {begins}")),
        ("\u{feff}dnf 3", "make x", &format!("x:1: '\\ufeffdnf 3': {begins}")),
        ("dnf 61", "make x", "x:1: 61 marks; at most 60"),
        ("dnf 3\n1-0\n1-", "make x", "x:3: '1-' has 2 marks, not 3"),
        ("dnf 3\n1x0", "make x", "x:2: 'x' in column 2 of '1x0': a mark is 1, 0 or -"),
        ("dnf 3\n  1-0 1", "make x", "x:2: ' ' in column 4 of '1-0 1': a mark is 1, 0 or -"),
        ("dnf 3\n1\u{1b}0", "make x", "x:2: '\\x1b' in column 2 of '1\\x1b0': a mark is 1, 0 or -"),
        ("dnf 3\n1é0", "make x", "x:2: 'é' in column 2 of '1é0': a mark is 1, 0 or -"),
        ("dnf 2\n11\ndnf 2", "make x", "x:3: 'd' in column 1 of 'dnf 2': a mark is 1, 0 or -"),
        ("dnf 0\n1", "make x", "x:2: '1' has 1 mark, not 0"),
        (&long, "make x", &format!("x:2: '{}..' has 5000 marks, not 3", "0".repeat(64))),
        (&many, "make x", "x:1026: over 1024 clauses"),
        ("table 2\n2 0 0\n2 1 1\n0 1", "make x", "x:4: '0 1': a node is 'mark low high'"),
        ("table 2\n2 0 0\n2 1 1\n0 1 2", "make x", "x:4: node 2 has high link 2: links lead to earlier nodes"),
        ("table 2\n2 0 0\n2 1 1\n1 0 1\n1 2 0", "make x", "x:5: node 3 asks mark 1, but its low link 2 asks mark 1: marks must rise"),
        ("table 2\n2 0 0\n2 1 1\n2 0 1", "make x", "x:4: node 2 asks mark 2, there are 2"),
        ("table 2\n", "make x", "x: a table has at least node 0, which is '2 0 0'"),
        ("table 2\n2 1 1\n", "make x", "x:2: node 0 is (2,1,1), not (2,0,0)"),
        ("table 2\n2 0 0\n2 0 0\n", "make x", "x:3: node 1 is (2,0,0), not (2,1,1)"),
        ("table 2\n2 0 0\n2 1 1\n0 0 -1\n", "make x", "x:4: high is '-1', not a whole number"),
        ("vars 1\nnodes 3\ndnf 1\n1\ncnf 1\n1\n", "make x", &format!("x: this is the program's output already; {wants}")),
        ("refused 9 0\n", "make x", &format!("x: this is a refusal already; {wants}")),
        ("\u{1}\0", "show x", "x: 2 bytes, a sheet has at least 32 (refused 9 0)"),
        ("vars 2\nnodes 4\ndnf 1\n11\ncnf 2\n1-\n", "show x", "x:7: ends after 1 of 2 cnf clauses"),
        ("vars 2\nnodes 4\n", "show x", "x:3: ends before 'dnf ..': not the whole output"),
        ("vars 61\n", "show x", "x:1: 'vars 61', where 'vars NUMBER' (at most 60) is wanted"),
        ("vars 2\r\n", "show x", "x:1: 'vars 2\\r', where 'vars NUMBER' (at most 60) is wanted"),
        ("vars 2\n\nnodes 4\n", "show x", "x:2: '', where 'nodes NUMBER' (at most 4096) is wanted"),
        ("vars 2\nnodes 4\ndnf 1\n1x\n", "show x", "x:4: 'x' in column 2 of '1x': a mark is 1, 0 or -"),
        ("vars 2\nnodes 4\ndnf 1\n11\ncnf 9999\n", "show x", "x:5: 'cnf 9999', where 'cnf NUMBER' (at most 1024) is wanted"),
        ("vars 1\nnodes 3\ndnf 1\n1\ncnf 1\n1\nmore", "show x", "x:7: 'more' after the end of the output"),
        ("vars 1\nnodes 3\ndnf 1\n1\ncnf 0\n", "show x", "x: its clauses speak of 1 cases, there are 2: not the whole output"),
        ("vars 1\nnodes 4\ndnf 1\n1\ncnf 1\n1\n", "draw x", "x:2: 'nodes 4', but the paths are those of a table of 3"),
        ("vars 2\nnodes 4\ndnf 2\n1-\n-1\ncnf 0\n", "draw x", "x:5: clause -1 and the one before are no paths of one table"),
        ("vars 1\nnodes 2\ndnf 2\n0\n1\ncnf 0\n", "draw x", "x:4: clause 0 asks mark 0 in vain: not a path list"),
        ("refused 4\n", "show x", "x:1: a refusal is one line, 'refused NUMBER PLACE'"),
        ("refused 12 0\n", "show x", "x:1: no refusal has number 12"),
        ("refused 1 0\nmore\n", "show x", "x:1: a refusal is one line, 'refused NUMBER PLACE'"),
        ("refused x 0\n", "show x", "x:1: the refusal is 'x', not a whole number"),
        ("refusedly\n", "show x", &format!("x:1: 'refusedly': {begins}")),
        ("refused 2 0\n", "dot x", "x: no table: refused 2 0: SHORT: a lent buffer is too small; lend what the header says"),
        ("dnf 2\n11", "dot x", "x: this is a list of clauses; its table comes from what ./run prints about its sheet"),
        ("table 1\n1 0 0\n", "draw x a,b", "2 names for 1 mark: 'a,b'"),
        ("table 2\n2 0 0\n", "dot x ''", "1 name for 2 marks: ''"),
        ("table 1\n1 0 0\n", "draw x \"$(printf 'a\\001b')\"", "the name of mark 0, 'a\\x01b', has a character that cannot be drawn"),
        ("table 1\n1 0 0\n", "draw x \"$(printf 'a\\377b')\"", "the name of mark 0, 'a\\udcffb', has a character that cannot be drawn"),
        ("table 1\n1 0 0\n", "dot x \"$(printf 'a\\nb')\"", "the name of mark 0, 'a\\nb', has a character that cannot be drawn"),
        ("cnf 2\n11", "areas x x", "x: this is a cnf list; areas are added over a dnf list, such as what ./run prints"),
        ("table 1\n1 0 0", "areas x x", "x: this is a table; areas are added over a list, such as what ./run prints"),
        ("11", "areas y x", "x:1: '11': a cell is its marks and its area, such as '110 6.5'"),
        ("11 2\n1- 5", "areas y x", "x:2: '-' in column 2 of '1-': a cell has every mark, 1 or 0"),
        ("111 2", "areas y x", "x:1: '111' has 3 marks, not 2"),
        ("1x 2", "areas y x", "x:1: 'x' in column 2 of '1x': a mark is 1, 0 or -"),
        ("11 2 3", "areas y x", "x:1: '11 2 3': a cell is its marks and its area, such as '110 6.5'"),
        ("11 wide", "areas y x", &format!("x:1: area 'wide' {areas}")),
        ("11 6,5", "areas y x", &format!("x:1: area '6,5' {areas}")),
        ("11 1e5", "areas y x", &format!("x:1: area '1e5' {areas}")),
        ("11 nan", "areas y x", &format!("x:1: area 'nan' {areas}")),
        ("11 -3", "areas y x", "x:1: area '-3': an area is 0 or more"),
        ("refused 2 0\n", "areas x x", "x: no list: refused 2 0: SHORT: a lent buffer is too small; lend what the header says"),
        ("", "make absent", "absent: No such file or directory"),
        ("", "make ''", "'': No such file or directory"),
        ("", "show /", "/: Is a directory"),
        ("", "areas y /", "/: Is a directory"),
        ("", "show /dev/zero", "/dev/zero: over 67108864 bytes; no sheet, text or list of cells is that long"),
        ("", "show - <&-", "standard input is closed"),
        ("dnf 2\n11", "show x >/dev/full", "standard output: No space left on device"),
        ("", "areas - -", "only one of FILE and CELLS can be standard input"),
        ("", "", &format!("no command: {commands}")),
        ("", "frob x", &format!("no command 'frob': {commands}")),
        ("", "make", "'make' takes 1 argument, 0 given; tools/sheet help"),
        ("", "areas x", "'areas' takes 2 arguments, 1 given; tools/sheet help"),
        ("", "draw x y z", "'draw' takes 1 or 2 arguments, 3 given; tools/sheet help"),
    ];
    write(folder.0.join("y"), "dnf 2\n11\n").unwrap();
    let bytes: [(&[u8], &str, &str); 3] = [
        (b"dnf 3\n1\xe90", "make x", "x: byte 7 is no text, and the first word is not a sheet's version 1"),
        (b"\xff\xfe\x00\x01", "show x", "x: 4 bytes, a sheet has at least 32 (refused 9 0)"),
        (b"\xff\xfe\x00\x01", "areas y x", "x: byte 0 is no text; lines such as '110 6.5' are wanted"),
    ];
    for (content, words, objection) in bytes {
        assert_eq!(String::from_utf8_lossy(&tool(&folder, content, words).stdout), format!("sheet: {objection}\n"), "{words}");
    }
    for (content, words, objection) in wrong {
        let output = tool(&folder, content.as_bytes(), words);
        assert_eq!(String::from_utf8_lossy(&output.stdout), format!("sheet: {objection}\n"), "{words} of {content:.40}");
        assert!(matches!(output.status.code(), Some(1 | 2)), "{words} of {content:.40}");
    }
}

#[test]
fn names_may_have_any_characters_that_can_be_drawn() {
    let folder = Folder::new("names");
    let parsed = "draw x '<a> & \"b\\' | python3 -c 'import sys, xml.dom.minidom as dom; \
                  print(dom.parse(sys.stdin).getElementsByTagName(\"text\")[0].firstChild.data)'";
    let table = b"table 1\n1 0 0\n1 1 1\n0 0 1\n";
    assert_eq!(String::from_utf8_lossy(&tool(&folder, table, parsed).stdout), "0 <a> & \"b\\\n");
    let dot = tool(&folder, table, "dot x '<a> & \"b\\'").stdout;
    assert!(String::from_utf8_lossy(&dot).contains(r#"[label="0 <a> & \"b\\", tooltip="node 2"]"#));
}

/// Of each node a dashed link and a solid one; every link to yes or no ends at a place of its own; a row for each mark, downwards.
#[test]
fn links_and_rows_of_a_picture_are_told_apart() {
    let folder = Folder::new("picture");
    // the parity of six marks: two nodes a row below the first
    let rows = (0..5).flat_map(|k| {
        let mark = 5 - k;
        [format!("{mark} {} {}", 2 * k, 2 * k + 1), format!("{mark} {} {}", 2 * k + 1, 2 * k)]
    });
    let nodes: Vec<String> = ["6 0 0".to_string(), "6 1 1".to_string()].into_iter().chain(rows).chain(["0 10 11".to_string()]).collect();
    let drawn = tool(&folder, format!("table 6\n{}\n", nodes.join("\n")).as_bytes(), "draw x a,b,c,d,e,f").stdout;
    let drawn = String::from_utf8(drawn).unwrap();
    let links: Vec<&str> = drawn.lines().filter(|line| line.starts_with("<path ")).collect();
    let dashed = links.iter().filter(|line| line.contains("stroke-dasharray")).count();
    assert_eq!((links.len(), dashed), (22, 11));
    let end = |line: &str| line.split('"').nth(1).unwrap().rsplit(' ').next().unwrap().to_string();
    let height = |end: &String| end.split_once(',').unwrap().1.parse::<f64>().unwrap();
    let ends: Vec<String> = links.iter().map(|line| end(line)).collect();
    let lowest = ends.iter().map(height).fold(0.0, f64::max);
    let last: Vec<&String> = ends.iter().filter(|end| height(end) == lowest).collect();
    assert_eq!((last.len(), last.iter().collect::<BTreeSet<_>>().len()), (4, 4));
    let places: Vec<usize> =
        ["0 a", "1 b", "2 c", "3 d", "4 e", "5 f"].map(|name| drawn.find(&format!(">{name}</text>")).unwrap()).to_vec();
    assert!(places.is_sorted());
}

#[test]
fn wrong_sheets_are_told_by_byte() {
    let folder = Folder::new("bytes");
    let good = tool(&folder, b"dnf 2\n11\n", "make x").stdout;
    let wrong: [(usize, u8, &str); 11] = [
        (0, 2, "byte 0: version 2, not 1 (refused 9 0)"),
        (4, 61, "byte 4: 61 marks, at most 60 (refused 1 0)"),
        (8, 2, "byte 24: total length 48, not 64 (refused 9 0)"),
        (12, 33, "byte 12: clause offset 33, not 32 (refused 9 0)"),
        (16, 1, "byte 16: node count 1, not 0 (refused 9 0)"),
        (20, 32, "byte 20: node offset 32, not 0 (refused 9 0)"),
        (24, 1, "byte 24: total length 1, but there are 48 bytes (refused 9 0)"),
        (28, 3, "byte 8: clause count 1, not 0 (refused 9 0)"),
        (28, 5, "byte 28: kind 5; 1 is dnf, 2 cnf, 3 table (refused 9 0)"),
        (32, 7, "byte 32: clause 0 fixes mark 2, there are 2 (refused 4 0)"),
        (32, 1, "byte 40: clause 0 has a value for mark 1, which it does not fix (refused 4 0)"),
    ];
    for (at, byte, objection) in wrong {
        let mut sheet = good.clone();
        sheet[at] = byte;
        assert_eq!(String::from_utf8_lossy(&tool(&folder, &sheet, "show x").stdout), format!("sheet: x: {objection}\n"));
    }
}

#[test]
fn the_tools_can_be_run() {
    for tool in ["tools/sheet", "tools/proved", "run", "test"] {
        assert_eq!(root().join(tool).metadata().unwrap().permissions().mode() & 0o111, 0o111, "{tool}");
    }
}
