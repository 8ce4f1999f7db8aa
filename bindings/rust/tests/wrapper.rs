//! Every call once with a known answer, and the refusals that a caller meets.
use collartug::{choose_posting, Clause, Cover, Posting, Refusal, Sheet, Table};

fn list(texts: &[&str]) -> Vec<Clause> {
    texts.iter().map(|text| Clause::parse(text).unwrap()).collect()
}

fn texts(clauses: &[Clause], n: u16) -> Vec<String> {
    clauses.iter().map(|clause| clause.text(n)).collect()
}

fn refused<T>(number: u8, place: u64) -> Result<T, Refusal> {
    Err(Refusal { number, place })
}

fn table(n: u16, clauses: &[&str]) -> Table {
    Table::from_dnf(n, &list(clauses), 64).unwrap()
}

#[test]
fn a_list_becomes_a_table_and_lists_again() {
    let cell = table(3, &["10-", "1-1"]);
    assert_eq!(cell.nodes().collect::<Vec<_>>(), [[3, 0, 0], [3, 1, 1], [2, 0, 1], [1, 1, 2], [0, 0, 3]]);
    assert_eq!((cell.marks(), cell.count(), cell.case_count(), cell.support()), (3, 5, Ok(3), Ok(0b111)));
    assert_eq!(texts(&cell.to_dnf(9).unwrap(), 3), ["10-", "111"]);
    assert_eq!(texts(&cell.to_cnf(9).unwrap(), 3), ["1--", "001"]);
    assert_eq!(cell.to_dnf(1), refused(Refusal::CLAUSES, 2));
    assert_eq!((cell.says(0b101), cell.says(0b011), cell.says(0b1000)), (Ok(true), Ok(false), refused(Refusal::VARIABLE, 3)));
    assert_eq!(Table::from_cnf(3, &cell.to_cnf(9).unwrap(), 64), Ok(cell));
}

#[test]
fn constants_and_empty_lists() {
    let (no, yes) = (table(2, &[]), Table::from_cnf(2, &[], 2).unwrap());
    assert_eq!((no.count(), no.to_dnf(0), texts(&no.to_cnf(1).unwrap(), 2)), (1, Ok(vec![]), vec!["--".to_string()]));
    assert_eq!((yes.count(), yes.to_cnf(0), yes.case_count()), (2, Ok(vec![]), Ok(4)));
    assert_eq!(no.not(2), Ok(yes));
    assert_eq!(Table::from_dnf_cases(2, &[1, 2], 9), Ok(table(2, &["10", "01"])));
    assert_eq!(Table::from_cnf_cases(2, &[1, 2], 9), Table::from_cnf(2, &list(&["10", "01"]), 9));
    assert_eq!(Table::from_dnf_cases(2, &[1, 4], 9), refused(Refusal::VARIABLE, 1));
}

#[test]
fn operators() {
    let (a, b) = (table(3, &["1--"]), table(3, &["-1-"]));
    assert_eq!(a.and(&b, 9), Ok(table(3, &["11-"])));
    assert_eq!(a.or(&b, 9), Ok(table(3, &["1--", "-1-"])));
    assert_eq!(a.and_not(&b, 9), Ok(table(3, &["10-"])));
    let cell = table(3, &["10-", "1-1"]);
    assert_eq!(cell.for_all(1, 9), Ok(table(3, &["1-1"])));
    assert_eq!(cell.exists(1, 9), Ok(table(3, &["1--"])));
    assert_eq!(cell.restrict(2, false, 9), Ok(table(3, &["10-"])));
    assert_eq!(cell.restrict(2, true, 9), Ok(table(3, &["1--"])));
    assert_eq!(cell.exists(3, 9), refused(Refusal::VARIABLE, 3));
    assert_eq!(cell.not(4), refused(Refusal::NODES, 0));
    assert_eq!(a.and(&table(2, &["1-"]), 9), refused(Refusal::TABLE, 0));
}

#[test]
fn the_cover_check_names_the_first_difference() {
    let cell = table(3, &["10-", "1-1"]);
    assert_eq!(cell.covers(&list(&["1-1", "10-"]), 9), Ok(Cover::Agrees));
    assert_eq!(cell.covers(&list(&["10-"]), 9), Ok(Cover::Differs(0b111)));
    assert_eq!(cell.covers(&list(&["10-", "1-1"]), 3), refused(Refusal::NODES, 1));
}

#[test]
fn a_walk_yields_the_path_list() {
    for (n, clauses) in [(3, vec!["10-", "1-1"]), (3, vec!["1--", "-1-", "--1"]), (2, vec![]), (2, vec!["--"]), (0, vec![""])] {
        let table = table(n, &clauses);
        let mut walk = table.walk().unwrap();
        assert_eq!(walk.by_ref().collect::<Vec<_>>(), table.to_dnf(9).unwrap(), "{clauses:?}");
        assert_eq!((walk.next(), walk.next()), (None, None));
        assert_eq!(table.walk().unwrap().next(), table.to_dnf(9).unwrap().first().copied());
    }
    let nodes = |last: &[[u32; 3]]| Table::from_nodes(1, &[&[[1, 0, 0], [1, 1, 1]], last].concat()).unwrap();
    assert_eq!(nodes(&[[0, 1, 1]]).walk().map(drop), refused(Refusal::REDUCED, 2));
    assert_eq!(nodes(&[[0, 0, 1], [0, 0, 1]]).walk().map(drop), refused(Refusal::REDUCED, 2));
    assert_eq!(nodes(&[[0, 1, 0]]).walk().map(|walk| walk.count()), Ok(1));
}

#[test]
fn short_lists() {
    let short = |n, clauses: &[&str]| texts(&table(n, clauses).to_optimized_dnf(64, 9).unwrap(), n);
    assert_eq!(short(2, &["1-", "-1"]), ["-1", "1-"]);
    assert_eq!(short(2, &["01", "10"]), ["10", "01"]);
    assert_eq!(short(3, &["10-", "111"]), ["1-1", "10-"]);
    assert_eq!((short(2, &[]), short(2, &["--"])), (vec![], vec!["--".to_string()]));
    let cell = table(3, &["10-", "111"]);
    assert_eq!(cell.covers(&cell.to_optimized_dnf(64, 9).unwrap(), 64), Ok(Cover::Agrees));
    assert_eq!((cell.to_optimized_dnf(64, 1), cell.to_optimized_dnf(64, 0)), (refused(Refusal::CLAUSES, 0), refused(Refusal::CLAUSES, 0)));
    assert_eq!(cell.to_optimized_dnf(64, usize::MAX).map(|list| list.len()), Ok(2));
    assert_eq!(cell.to_optimized_dnf(4, 9), refused(Refusal::NODES, 0));
    for room in [0, 1, 4097, usize::MAX] {
        assert_eq!(cell.to_optimized_dnf(room, 9), refused(Refusal::LIMIT, 0), "room {room}");
    }
}

/// A list longer than the first buffer that is lent: the parity of twelve marks.
#[test]
fn a_long_short_list() {
    let mark = |i: u16| Table::from_dnf(12, &[Clause { fixed: 1 << i, values: 1 << i }], 9).unwrap();
    let xor = |a: Table, b: Table| a.and_not(&b, 99).unwrap().or(&b.and_not(&a, 99).unwrap(), 99).unwrap();
    let parity = (1..12).map(mark).fold(mark(0), xor);
    assert_eq!(parity.to_optimized_dnf(99, 2047), refused(Refusal::CLAUSES, 0));
    assert_eq!(parity.to_optimized_dnf(99, usize::MAX).map(|list| list.len()), Ok(2048));
}

#[test]
fn the_list_with_fewer_clauses_is_posted() {
    let (one, two, other) = (list(&["1-"]), list(&["10", "01"]), list(&["-1"]));
    assert_eq!(choose_posting(&one, &two), Posting::Dnf(&one));
    assert_eq!(choose_posting(&two, &one), Posting::Cnf(&one));
    assert_eq!(choose_posting(&one, &other), Posting::Dnf(&one));
    assert_eq!((choose_posting(&[], &[]), choose_posting(&one, &[])), (Posting::Dnf(&[]), Posting::Cnf(&[])));
}

#[test]
fn wrong_rooms_lists_and_nodes_are_refused() {
    for room in [0, 1, 4097, usize::MAX] {
        assert_eq!(Table::from_dnf(2, &[], room), refused(Refusal::LIMIT, 0), "room {room}");
        assert_eq!(table(2, &["11"]).covers(&[], room), refused(Refusal::LIMIT, 0), "room {room}");
    }
    assert_eq!(Table::from_dnf(61, &[], 9), refused(Refusal::LIMIT, 0));
    assert_eq!(Table::from_dnf(2, &vec![Clause::default(); 1025], 9), refused(Refusal::LIMIT, 0));
    assert_eq!(Table::from_dnf(2, &list(&["11", "--1"]), 9), refused(Refusal::CLAUSE, 1));
    assert_eq!(Table::from_nodes(1, &[]), refused(Refusal::LIMIT, 0));
    assert_eq!(Table::from_nodes(1, &[[1, 0, 0], [1, 1, 1], [0, 0, 2]]), refused(Refusal::TABLE, 2));
    let unreduced = Table::from_nodes(1, &[[1, 0, 0], [1, 1, 1], [0, 1, 1]]).unwrap();
    assert_eq!((texts(&unreduced.to_dnf(2).unwrap(), 1), unreduced.support()), (vec!["0".to_string(), "1".to_string()], Ok(0)));
}

#[test]
fn clauses_by_themselves() {
    let clause = Clause::parse("1-0").unwrap();
    assert_eq!(clause, Clause { fixed: 0b101, values: 0b001 });
    assert_eq!((clause.text(4), Clause::parse("1x"), Clause::parse(&"-".repeat(61))), ("1-0-".to_string(), None, None));
    assert_eq!((clause.cardinality(), clause.last_fixed_mark(), clause.is_empty()), (Ok(2), Ok(Some(2)), Ok(false)));
    assert_eq!((clause.get(0), clause.get(1), clause.get(2)), (Ok(Some(true)), Ok(None), Ok(Some(false))));
    assert_eq!((clause.has(1), clause.has(2), clause.has(60)), (Ok(false), Ok(true), refused(Refusal::VARIABLE, 60)));
    assert_eq!((clause.with(1, true), clause.without(0)), (Ok(Clause::parse("110").unwrap()), Ok(Clause::parse("--0").unwrap())));
    assert_eq!((clause.to_values(), Clause::from_values(&[4, 0, 1])), (Ok(vec![1, 4]), Ok(clause)));
    assert_eq!(Clause::from_values(&[0, 120]), refused(Refusal::VARIABLE, 1));
    let shorter = Clause::parse("1--").unwrap();
    assert_eq!((clause.extends(shorter), shorter.extends(clause)), (Ok(true), Ok(false)));
    assert_eq!((clause.equals(clause), clause.equals(shorter)), (Ok(true), Ok(false)));
    assert_eq!(clause.equals(Clause { fixed: 0, values: 1 }), refused(Refusal::CLAUSE, 1));
    assert_eq!(clause.extends(Clause { fixed: 0, values: 1 }), refused(Refusal::CLAUSE, 1));
    assert_eq!((Clause::default().is_empty(), Clause::default().last_fixed_mark()), (Ok(true), Ok(None)));
}

#[test]
fn refusals_have_words() {
    assert_eq!(Refusal { number: 7, place: 3 }.to_string(), "refused 7 3 (NODES)");
}

/// A sheet over two marks.
fn sheet(kind: u32, clauses: &[u64], nodes: &[u32]) -> Vec<u8> {
    let offset = |len: usize| if len == 0 { 0 } else { 32 };
    let (clause_count, node_count) = (clauses.len() / 2, nodes.len() / 3);
    let total = 32 + 8 * clauses.len() + 4 * nodes.len();
    let header = [1, 2, clause_count, offset(clause_count), node_count, offset(node_count), total].map(|word| word as u32);
    let words = header.iter().chain([&kind]).flat_map(|word| word.to_le_bytes());
    words.chain(clauses.iter().flat_map(|word| word.to_le_bytes())).chain(nodes.iter().flat_map(|word| word.to_le_bytes())).collect()
}

#[test]
fn sheets_are_read() {
    let both = table(2, &["11"]);
    let list = list(&["11"]);
    assert_eq!(Sheet::read(&sheet(1, &[3, 3], &[])), Ok(Sheet::Dnf(2, list.clone())));
    assert_eq!(Sheet::read(&sheet(2, &[3, 3], &[])), Ok(Sheet::Cnf(2, list)));
    let nodes: Vec<u32> = both.nodes().flatten().collect();
    assert_eq!(Sheet::read(&sheet(3, &[], &nodes)), Ok(Sheet::Table(both.clone())));
    assert_eq!(Sheet::read(&sheet(1, &[3, 3], &[])).unwrap().table(9), Ok(both));
    assert_eq!(Sheet::read(&sheet(2, &[3, 3], &[])).unwrap().table(9), Ok(table(2, &["1-", "-1"])));
    assert_eq!(Sheet::read(&[]), refused(Refusal::SHEET, 0));
    assert_eq!(Sheet::read(&sheet(4, &[3, 3], &[])), refused(Refusal::SHEET, 0));
    assert_eq!(Sheet::read(&sheet(1, &[3, 3, 4, 0], &[])), refused(Refusal::CLAUSE, 1));
    assert_eq!(Sheet::read(&sheet(3, &[], &nodes[..9])).unwrap().table(9).map(|table| table.count()), Ok(3));
    assert_eq!(Sheet::read(&sheet(3, &[], &nodes[3..9])), refused(Refusal::TABLE, 0));
}
