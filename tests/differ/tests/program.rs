//! The program as a process against a second reading of what it prints: the specification's own sheets, and a hundred thousand others,
//! whole and damaged.
use biodivine_lib_bdd::{Bdd, BddVariableSet};
use differ::answer::{CLAUSE, CLAUSES, LIMIT, NODES, SHEET};
use differ::building::all_marks;
use differ::convert::to_valuation;
use differ::corpus::{unreduced, windowed};
use differ::lists::{cell, interval, large_list, parity, random_cells, some_clauses};
use differ::program::{compare, Printed, Program};
use differ::random::Random;
use differ::reading::Valuation;
use differ::reading_program::{milled, Milled, Step, MOST_BYTES, ROOM};
use differ::reading_sheet::{CNF, DNF};
use differ::sheets::{changed_bytes, damaged_headers, list_sheet, replace_word, table_sheet};
use std::collections::BTreeMap;
use std::time::Duration;

const LEAST_SHEETS: u64 = 100_000;
const KINDS: [u64; 2] = [DNF, CNF];
const N_WORD: usize = 1;
const KIND_WORD: usize = 7;
/// What can refuse a sheet; no other number is the program's to give.
const REFUSALS: [(Step, u64); 6] = [
    (Step::Reading, LIMIT),
    (Step::Reading, CLAUSE),
    (Step::Reading, SHEET),
    (Step::Build, NODES),
    (Step::Dnf, CLAUSES),
    (Step::Cnf, CLAUSES),
];

/// The sheets of a run, counted and compared.
struct Run {
    program: Program,
    sheets: u64,
    listed: u64,
    refused: BTreeMap<(Step, u64), u64>,
}

impl Run {
    fn new() -> Run {
        Run { program: Program::as_run(), sheets: 0, listed: 0, refused: BTreeMap::new() }
    }

    fn count(&mut self, want: &Milled) {
        self.sheets += 1;
        match want {
            Milled::Listed { .. } => self.listed += 1,
            Milled::Refused { step, number, .. } => *self.refused.entry((*step, *number)).or_default() += 1,
        }
    }

    /// Counts a sheet and compares what is printed of it, and stops the test where that differs.
    fn judge(&mut self, sheet: &[u8]) -> Milled {
        let want = milled(sheet);
        self.count(&want);
        demand(&want, &self.program.print(sheet), sheet);
        want
    }

    fn absorb(&mut self, other: Run) {
        self.sheets += other.sheets;
        self.listed += other.listed;
        for (refusal, times) in other.refused {
            *self.refused.entry(refusal).or_default() += times;
        }
    }

    /// Enough sheets were run, some were listed, and each refusal was seen and no other.
    fn complete(&self) -> Result<(), String> {
        if self.sheets < LEAST_SHEETS || self.listed == 0 {
            return Err(format!("{} sheets, {} listed; at least {LEAST_SHEETS} are wanted", self.sheets, self.listed));
        }
        let missing = REFUSALS.iter().find(|refusal| !self.refused.contains_key(refusal));
        let strange = self.refused.keys().find(|refusal| !REFUSALS.contains(refusal));
        match (missing, strange) {
            (Some(refusal), _) => Err(format!("{refusal:?} was never seen")),
            (_, Some(refusal)) => Err(format!("{refusal:?} is not the program's")),
            _ => Ok(()),
        }
    }

    fn print(&self) {
        println!("calls of the program: {} sheets, listed: {}", self.sheets, self.listed);
        for ((step, number), times) in &self.refused {
            println!("refused the program {number} {times} ({step:?})");
        }
    }
}

/// Stops the test where a process printed anything else; the sheet is kept in a file.
fn demand(want: &Milled, got: &Printed, sheet: &[u8]) {
    if let Err(what) = compare(&want.text(), got) {
        let file = std::env::temp_dir().join("collartug-differs.sheet");
        std::fs::write(&file, sheet).unwrap();
        panic!("the program on {} ({} bytes): {what}", file.display(), sheet.len());
    }
}

/// The same list read the other way: as the other kind it means the opposite.
fn inverted(clauses: &[Valuation]) -> Vec<Valuation> {
    clauses.iter().map(|clause| Valuation { fixed: clause.fixed, values: clause.fixed & !clause.values }).collect()
}

/// A cell, and some of the boxes beside it: those that agree with it up to a mark, and not in that mark. Together a chain of nodes, and
/// about as many ways to yes as to no.
fn chain(random: &mut Random, corner: Valuation) -> Vec<Valuation> {
    let beside = |mark: u16| Valuation { fixed: all_marks(mark + 1), values: (corner.values ^ 1 << mark) & all_marks(mark + 1) };
    let boxes = (8..60).filter(|_| random.coin()).map(beside);
    [corner].into_iter().chain(boxes).collect()
}

/// The table with more clauses, and the size of the largest on the way.
fn grown(table: &Bdd, clauses: &[Valuation]) -> (Bdd, usize) {
    let set = BddVariableSet::new_anonymous(table.num_vars());
    clauses.iter().fold((table.clone(), 0), |(table, largest), clause| {
        let longer = table.or(&set.mk_conjunctive_clause(&to_valuation(*clause)));
        let size = longer.size();
        (longer, largest.max(size))
    })
}

/// A DNF whose table has exactly so many nodes, and no opening run has more: chains, then cells that differ from a corner in two marks
/// alone, which as a rule add as many nodes as there are marks from the one to the other.
fn of_size(random: &mut Random, nodes: usize) -> Vec<Valuation> {
    let n = 60;
    let (mut list, mut corners, mut table) = (vec![], vec![], Bdd::mk_false(n));
    while table.size() < nodes {
        let left = nodes - table.size();
        let more = if left > 70 {
            corners.push(random.word());
            chain(random, cell(n, corners[corners.len() - 1]))
        } else {
            let apart = left.min(1 + random.below(50));
            let first = random.below(60 - apart);
            vec![cell(n, random.pick(&corners) ^ (1 << first | 1 << (first + apart)))]
        };
        let (longer, largest) = grown(&table, &more);
        if largest <= nodes && longer.size() > table.size() {
            list.extend(more);
            table = longer;
        }
    }
    list
}

/// A CNF whose table has exactly so many paths to yes, from 1,001 to 1,029, and few to no: with mark 0 unset, one of ten marks for each
/// of three groups; with it set, one of the remaining marks.
fn of_paths(random: &mut Random, paths: u32) -> Vec<Valuation> {
    let marks = |first: u32, many: u32| ((1 << many) - 1) << first;
    let clauses = [1 | marks(1, 10), 1 | marks(11, 10), 1 | marks(21, 10), 1 | marks(31, paths - 1000)];
    let turned = random.word();
    let value = |i: usize| if i == 3 { clauses[i] & !1 } else { clauses[i] };
    (0..4).map(|i| Valuation { fixed: clauses[i], values: (value(i) ^ turned) & clauses[i] }).collect()
}

/// Tables and lists just within their room, and just over it.
fn rooms_are_exact(run: &mut Run, random: &mut Random) {
    for nodes in ROOM - 6..=ROOM + 6 {
        for _ in 0..3 {
            let list = of_size(random, nodes);
            for (kind, list) in [(DNF, list.clone()), (CNF, inverted(&list))] {
                let want = run.judge(&list_sheet(kind, 60, &list));
                let over = matches!(want, Milled::Refused { step: Step::Build, number: NODES, .. });
                let within = matches!(want, Milled::Listed { nodes: found, .. } if found == nodes);
                assert!(if nodes > ROOM { over } else { within }, "{nodes} nodes: {want:?}");
            }
        }
    }
    for paths in ROOM as u32 - 4..=ROOM as u32 + 5 {
        let list = of_paths(random, paths);
        for (step, kind, list) in [(Step::Dnf, CNF, list.clone()), (Step::Cnf, DNF, inverted(&list))] {
            let want = run.judge(&list_sheet(kind, 60, &list));
            let over = Milled::Refused { step, number: CLAUSES, place: paths.into() };
            let longer = |dnf: usize, cnf: usize| if step == Step::Dnf { dnf } else { cnf };
            let within = matches!(&want, Milled::Listed { dnf, cnf, .. } if longer(dnf.len(), cnf.len()) == paths as usize);
            assert!(if paths > ROOM as u32 { want == over } else { within }, "{paths} paths: {want:?}");
        }
    }
}

/// Lists of up to as many clauses as a sheet holds, and the longest output there is.
fn long_lists(run: &mut Run, random: &mut Random) {
    for kind in KINDS {
        let longest = run.judge(&list_sheet(kind, 60, &parity(&[0, 7, 9, 11, 13, 19, 23, 29, 31, 44, 59])));
        assert!(matches!(longest, Milled::Listed { dnf, cnf, .. } if (dnf.len(), cnf.len()) == (ROOM, ROOM)));
        for (n, many) in [(60, 1023), (60, 1024), (60, 1025), (61, 3), (64, 0), (0, 1024), (0, 1025)] {
            run.judge(&list_sheet(kind, n, &interval(random, n.min(60), many)));
        }
    }
    for round in 0..400 {
        let (n, list) = match round % 4 {
            0 => large_list(random, round / 4),
            1 => {
                let (n, many) = (random.below(61) as u16, random.below(1025));
                (n, interval(random, n, many))
            }
            2 => {
                let (n, many) = (random.below(13) as u16, random.below(1025));
                (n, random_cells(random, n, many))
            }
            _ => {
                let (many, literals) = (random.below(1025), 3 + random.below(3));
                (60, windowed(random, 60, many, literals, 6))
            }
        };
        let kind = random.pick(&KINDS);
        run.judge(&list_sheet(kind, n, &if kind == CNF && random.coin() { inverted(&list) } else { list }));
    }
}

fn good_run() -> Run {
    let (mut run, random) = (Run::new(), &mut Random::new(101));
    rooms_are_exact(&mut run, random);
    long_lists(&mut run, random);
    for round in 0..40_000 {
        let n = (round % 61) as u16;
        let sheet = list_sheet(random.pick(&KINDS), n, &some_clauses(random, n));
        run.judge(&sheet);
    }
    run
}

/// Inputs at the longest length and over it: with a header that fits them, of either kind of section, and without.
fn lengths(run: &mut Run, random: &mut Random) {
    for len in [0, 1, 31, 32, 33, MOST_BYTES - 1, MOST_BYTES, MOST_BYTES + 1, MOST_BYTES + 16, 70_000, 131_072, 131_073, 200_000] {
        let mut sheet = list_sheet(DNF, 2, &vec![Valuation { fixed: 3, values: 1 }; len / 16 + 1]);
        sheet.resize(len, 0);
        run.judge(&sheet);
        run.judge(&vec![0; len]);
        run.judge(&(0..len).map(|_| random.below(256) as u8).collect::<Vec<u8>>());
        if len >= 32 {
            let count = replace_word(&sheet, 2, (len as u32 - 32) / 16);
            let want = run.judge(&replace_word(&count, 6, len as u32));
            let over_limit = Milled::Refused { step: Step::Reading, number: LIMIT, place: 0 };
            assert!(len != MOST_BYTES || want == over_limit, "{want:?}");
        }
    }
}

/// Tables are no input of the program, whatever else is wrong with them.
fn tables(run: &mut Run, random: &mut Random) {
    for round in 0..500 {
        let n = (round % 61) as u16;
        let sheet = table_sheet(n, &unreduced(random, n, 1 + round % 20));
        let want = run.judge(&sheet);
        assert_eq!(want, Milled::Refused { step: Step::Reading, number: SHEET, place: 0 });
        run.judge(&changed_bytes(random, &sheet));
        run.judge(&replace_word(&sheet, N_WORD, 61 + random.below(9) as u32));
    }
}

fn damaged_run() -> Run {
    let (mut run, random) = (Run::new(), &mut Random::new(102));
    lengths(&mut run, random);
    tables(&mut run, random);
    for round in 0..10_000 {
        let n = (round % 61) as u16;
        let sheet = list_sheet(random.pick(&KINDS), n, &some_clauses(random, n));
        run.judge(&changed_bytes(random, &sheet));
        run.judge(&sheet[..random.below(sheet.len() + 1)]);
        run.judge(&[&sheet[..], &vec![random.below(256) as u8; 1 + random.below(17)]].concat());
        run.judge(&replace_word(&sheet, KIND_WORD, random.pick(&[0, 4, 5, 9, 14, 15, 16, 17, 255, 257, 1 << 24, u32::MAX])));
        run.judge(&replace_word(&sheet, N_WORD, random.pick(&[0, 1, 60, 61, 62, 64, 256, 65_536, 65_540, u32::MAX])));
        if round % 500 == 0 {
            damaged_headers(&sheet).iter().for_each(|damaged| drop(run.judge(damaged)));
        }
    }
    run
}

#[test]
fn the_program_prints_what_the_reading_says() {
    let other = std::thread::spawn(damaged_run);
    let mut run = good_run();
    run.absorb(other.join().expect("a sheet of the other half differs"));
    run.print();
    assert_eq!(run.complete(), Ok(()));
}

fn list(texts: &[&str]) -> Vec<Valuation> {
    let bits = |text: &str, wanted: &[u8]| (0..).zip(text.bytes()).fold(0, |word, (i, cell)| word | u64::from(wanted.contains(&cell)) << i);
    texts.iter().map(|text| Valuation { fixed: bits(text, b"01"), values: bits(text, b"1") }).collect()
}

/// The specification's own sheets, with the texts written out by hand: the file that ./run starts prints them, and the reading says them.
#[test]
fn the_specifications_sheets_are_printed() {
    let free = "-".repeat(60);
    let all_yes = format!("vars 60\nnodes 2\ndnf 1\n{free}\ncnf 0\n");
    let all_no = format!("vars 60\nnodes 1\ndnf 0\ncnf 1\n{free}\n");
    let empty = |count| vec![Valuation { fixed: 0, values: 0 }; count];
    let sheets = [
        (list_sheet(DNF, 2, &[]), "vars 2\nnodes 1\ndnf 0\ncnf 1\n--\n"),
        (list_sheet(CNF, 2, &[]), "vars 2\nnodes 2\ndnf 1\n--\ncnf 0\n"),
        (list_sheet(CNF, 2, &list(&["--"])), "vars 2\nnodes 1\ndnf 0\ncnf 1\n--\n"),
        (list_sheet(DNF, 0, &list(&[""])), "vars 0\nnodes 2\ndnf 1\n\ncnf 0\n"),
        (list_sheet(DNF, 2, &list(&["11"])), "vars 2\nnodes 4\ndnf 1\n11\ncnf 2\n1-\n01\n"),
        (list_sheet(DNF, 2, &list(&["10", "01"])), "vars 2\nnodes 5\ndnf 2\n01\n10\ncnf 2\n11\n00\n"),
        (list_sheet(CNF, 2, &list(&["11", "00"])), "vars 2\nnodes 5\ndnf 2\n01\n10\ncnf 2\n11\n00\n"),
        (list_sheet(CNF, 2, &list(&["11"])), "vars 2\nnodes 4\ndnf 2\n01\n1-\ncnf 1\n11\n"),
        (list_sheet(DNF, 1, &list(&["1", "1"])), "vars 1\nnodes 3\ndnf 1\n1\ncnf 1\n1\n"),
        (list_sheet(DNF, 1, &list(&["0", "1"])), "vars 1\nnodes 2\ndnf 1\n-\ncnf 0\n"),
        (table_sheet(1, &[1, 0, 0, 1, 1, 1, 0, 1, 1]), "refused 9 0\n"),
        (list_sheet(DNF, 60, &empty(1024)), &all_yes),
        (list_sheet(CNF, 60, &empty(1024)), &all_no),
        (list_sheet(DNF, 61, &empty(1)), "refused 1 0\n"),
        (list_sheet(DNF, 60, &empty(1025)), "refused 1 0\n"),
        (list_sheet(DNF, 2, &[Valuation { fixed: 4, values: 0 }]), "refused 4 0\n"),
        (list_sheet(CNF, 2, &[Valuation { fixed: 0, values: 1 }]), "refused 4 0\n"),
        (vec![], "refused 9 0\n"),
        (vec![0; MOST_BYTES + 1], "refused 9 0\n"),
    ];
    let program = Program::as_run();
    for (sheet, text) in &sheets {
        assert_eq!(milled(sheet).text(), *text);
        assert_eq!(compare(text, &program.print(sheet)), Ok(()));
    }
}

/// A sheet is read to its end, however it comes.
#[test]
fn sheets_may_come_in_pieces() {
    let random = &mut Random::new(103);
    let sheet = list_sheet(DNF, 60, &interval(random, 60, 1024));
    let want = milled(&sheet).text();
    let bytes: Vec<&[u8]> = sheet[..40].chunks(1).chain([&sheet[40..]]).collect();
    for pieces in [bytes, sheet.chunks(5000).collect(), vec![&sheet, &[]]] {
        assert_eq!(compare(&want, &Program::as_run().print_pieces(&pieces, Duration::from_millis(5))), Ok(()));
    }
}

#[test]
fn another_text_is_objected_to() {
    let sheet = list_sheet(DNF, 3, &list(&["10-", "1-1"]));
    let (want, got) = (milled(&sheet).text(), Program::as_run().print(&sheet));
    assert_eq!(compare(&want, &got), Ok(()));
    for at in 0..want.len() {
        let (front, back) = want.split_at(at);
        for spoiled in [format!("{front}{}", &back[1..]), format!("{front} {back}"), front.to_string()] {
            assert!(compare(&spoiled, &got).is_err(), "{spoiled:?}");
        }
    }
    let more = [want.clone() + "\n", want.replace("dnf 2\n10-\n111\n", "dnf 2\n111\n10-\n"), milled(&[]).text()];
    assert!(more.iter().all(|spoiled| compare(spoiled, &got).is_err()));
    let others = [
        Printed { status: Some(1), ..got.clone() },
        Printed { status: None, ..got.clone() },
        Printed { errors: b"x".to_vec(), ..got.clone() },
        Printed { out: vec![], ..got },
    ];
    assert!(others.iter().all(|other| compare(&want, other).is_err()));
}

#[test]
fn a_run_without_some_refusal_is_objected_to() {
    let whole = || {
        let refused = REFUSALS.iter().map(|refusal| (*refusal, 1)).collect();
        Run { sheets: LEAST_SHEETS, listed: 1, refused, ..Run::new() }
    };
    assert_eq!(whole().complete(), Ok(()));
    for refusal in REFUSALS {
        let mut run = whole();
        run.refused.remove(&refusal);
        assert!(run.complete().is_err(), "{refusal:?}");
    }
    let mut strange = whole();
    strange.refused.insert((Step::Build, CLAUSES), 1);
    let few = [Run { sheets: LEAST_SHEETS - 1, ..whole() }, Run { listed: 0, ..whole() }, strange];
    assert!(few.iter().all(|run| run.complete().is_err()));
}
