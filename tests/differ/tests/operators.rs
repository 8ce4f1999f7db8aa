//! The nine operators against truth tables and against the oracle, and their refusals against the specification's words.
use biodivine_lib_bdd::Bdd;
use differ::answer::{compare, compare_unserved, Answer, LEAST_REPLY, LIMIT, NODES, SHORT, TABLE, VARIABLE};
use differ::copies::{forms, unreduced_copy};
use differ::corpus::{built, greatest, unreduced, windowed, Built, Meaning, Sum, MOST_NODES};
use differ::expected_operators::{found, found_for};
use differ::operation::{Operation, Operator, Space, Table};
use differ::proved::Room;
use differ::proved_operators::call;
use differ::random::Random;
use differ::reading::{first_unordered, says, Valuation};
use differ::reading_operators::{answer, Found};
use differ::run::{Run, Shares};
use differ::spoiled::Owned;
use differ::truth::Function;
use differ::wrong::objects_to_alterations;

/// What the run against the oracle must reach.
const SHARES: Shares = Shares { calls: 1_000_000, large: 20_000, refused: 50_000, entries: 9 };

/// A large call: so many marks, and so many nodes in an operand or in the result.
const MANY_MARKS: u16 = 30;
const MANY_NODES: usize = 500;

fn judge(run: &mut Run, operation: &Operation, found: impl FnOnce() -> Found) -> Answer {
    let want = answer(operation, found);
    let got = call(run.tally.room(), operation);
    run.judge(operation.operator.name(), &want, &got, is_large(operation, &want), || format!("{operation:?}"));
    want
}

/// Only calls that got past inspection count.
fn is_large(operation: &Operation, want: &Answer) -> bool {
    let result = match want {
        Answer::Given { values, .. } if operation.operator.makes_table() => values[0] as usize,
        Answer::Given { .. } | Answer::Refused { number: NODES, .. } => 0,
        Answer::Refused { .. } => return false,
    };
    operation.n >= MANY_MARKS && operation.tables().map(|table| table.count).fold(result, usize::max) >= MANY_NODES
}

/// A call without room and buffers, which `with_space` gives it.
fn operation<'a>(operator: Operator, n: u16, left: &'a [u32], right: &'a [u32], mark: u16, value: u64) -> Operation<'a> {
    let space = Space { room: 2, out: 0, work: 0 };
    Operation { operator, n, left: Table::whole(left), right: Table::whole(right), mark, value, space }
}

// ---- truth tables ----

/// A function as its canonical table and as a tree.
struct Small {
    function: Function,
    canonical: Vec<u32>,
    tree: Vec<u32>,
}

impl Small {
    fn new(function: Function) -> Small {
        Small { function, canonical: function.canonical(), tree: function.tree() }
    }
}

/// Every room from the least to one more than is needed.
fn every_room(run: &mut Run, operation: Operation, found: &Found) {
    let most = if operation.operator.makes_table() { found.size().max(2) + 1 } else { 2 };
    for room in 2..=most {
        judge(run, &operation.with_space(room, room % 3), || found.clone());
    }
}

/// One operator on two functions of the same marks, on their canonical tables and on their trees.
fn check_functions(run: &mut Run, operator: Operator, a: &Small, b: &Small, mark: u16, value: u64) {
    let (n, found) = (a.function.n, a.function.found(operator, b.function, mark, value != 0));
    every_room(run, operation(operator, n, &a.canonical, &b.canonical, mark, value), &found);
    let trees = operation(operator, n, &a.tree, &b.tree, mark, value);
    // with room for the whole tree too: it must be reduced all the same
    for room in [found.size().saturating_sub(1), found.size(), a.tree.len() / 3] {
        judge(run, &trees.with_space(room.max(2), 0), || found.clone());
    }
}

fn check_unary(run: &mut Run, a: &Small) {
    for operator in Operator::ALL.into_iter().filter(|operator| !operator.is_binary()) {
        let marks = if operator.takes_mark() { a.function.n } else { 1 };
        for mark in 0..marks {
            for value in [0, 1] {
                check_functions(run, operator, a, a, mark, value);
            }
        }
    }
}

#[test]
fn all_functions_of_up_to_three_marks() {
    let mut run = Run::default();
    for n in 0..=3 {
        let all: Vec<Small> = Function::all(n).into_iter().map(Small::new).collect();
        for a in &all {
            check_unary(&mut run, a);
            for b in &all {
                Operator::BINARY.into_iter().for_each(|operator| check_functions(&mut run, operator, a, b, 0, 0));
            }
        }
    }
    run.tally.print();
    assert!(run.tally.calls() > 1_000_000 && run.tally.entries() == 9);
}

/// Functions of four to six marks, chosen at random: dense ones, sparse ones, and some that do not depend on every mark.
#[test]
fn functions_of_up_to_six_marks() {
    let (mut run, random) = (Run::default(), &mut Random::new(21));
    let function = |random: &mut Random, n: u16| {
        let (even, sparse) = (random.word(), random.word() & random.word() & random.word());
        let few_marks = 0x0101_0101_0101_0101 * (even & 255);
        Small::new(Function::cut(n, random.pick(&[even, sparse, !sparse, few_marks, 0x0001_0001_0001_0001 * (even & 0xffff)])))
    };
    for round in 0..6_000 {
        let n = 4 + round % 3;
        let (a, b) = (function(random, n), function(random, n));
        check_unary(&mut run, &a);
        Operator::BINARY.into_iter().for_each(|operator| check_functions(&mut run, operator, &a, &b, 0, 0));
    }
    run.tally.print();
}

// ---- the oracle ----

/// A table that the oracle built, in forms that mean the same: as made, renumbered, and copies that are not reduced.
struct Operand {
    n: u16,
    bdd: Bdd,
    meaning: Meaning,
    forms: Vec<Vec<u32>>,
}

impl Operand {
    fn new(random: &mut Random, built: Built) -> Operand {
        Operand { n: built.n, forms: forms(random, &built.bdd), bdd: built.bdd, meaning: built.meaning }
    }

    fn form(&self, random: &mut Random) -> &[u32] {
        &self.forms[random.below(self.forms.len())]
    }

    /// Marks to set: one that stands in the table, if any does, and any one.
    fn marks(&self, random: &mut Random) -> Vec<u16> {
        let n = usize::from(self.n);
        let inside = self.forms[0].chunks(3).skip(2).map(|node| node[0] as u16).collect::<Vec<_>>();
        let mut marks = if inside.is_empty() { vec![] } else { vec![random.pick(&inside)] };
        marks.extend((n > 0).then(|| [0, n - 1, random.below(n)][random.below(3)] as u16));
        marks
    }
}

/// What the operator's answer is for a case, by the meanings that the tables were built for.
fn meant(operator: Operator, a: &Meaning, b: &Meaning, mark: u16, value: bool, case: u64) -> Option<bool> {
    let either = [case & !(1 << mark), case | 1 << mark].map(|case| a.holds(case));
    match operator {
        Operator::Not => Some(!a.holds(case)),
        Operator::And => Some(a.holds(case) && b.holds(case)),
        Operator::Or => Some(a.holds(case) || b.holds(case)),
        Operator::AndNot => Some(a.holds(case) && !b.holds(case)),
        Operator::ForAll => Some(either[0] && either[1]),
        Operator::Exists => Some(either[0] || either[1]),
        Operator::Restrict => Some(either[usize::from(value)]),
        Operator::Support | Operator::Cardinality => None,
    }
}

/// The oracle's answer, and a few cases of it held against the meanings: its apply is ours, so it is not simply believed.
fn oracles(random: &mut Random, operator: Operator, a: &Operand, b: &Operand, mark: u16, value: bool) -> Found {
    let found = found(operator, &a.bdd, &b.bdd, mark, value);
    if let Found::Table(words) = &found {
        for _ in 0..4 {
            let case = random.bits(a.n);
            let truth = Some(says(found.size(), words, case));
            assert_eq!(truth, meant(operator, &a.meaning, &b.meaning, mark, value, case), "the oracle is wrong about {operator:?}");
        }
    }
    found
}

/// Rooms around the result's size, and one anywhere.
fn rooms(random: &mut Random, operator: Operator, size: usize) -> Vec<usize> {
    if !operator.makes_table() {
        return vec![2];
    }
    let limit = random.pick(&[40, 40, 40, MOST_NODES]);
    let around = [size.wrapping_sub(1), size, size + 1, 2 + random.below(limit - 1)];
    let inside: Vec<usize> = around.into_iter().filter(|room| (2..=MOST_NODES).contains(room)).collect();
    if inside.is_empty() {
        vec![MOST_NODES]
    } else {
        inside
    }
}

/// The marks and values for which an operator is tried. Any value but 0 is true.
fn settings(random: &mut Random, operator: Operator, a: &Operand) -> Vec<(u16, u64)> {
    if !operator.takes_mark() {
        return vec![(0, 0)];
    }
    a.marks(random).into_iter().map(|mark| (mark, random.pick(&[0, 0, 0, 1, 1, 2, 256, 1 << 32, u64::MAX]))).collect()
}

/// One operator on two operands: every room with several forms of them, and now and then a call with something spoiled.
fn check_operands(run: &mut Run, random: &mut Random, operator: Operator, a: &Operand, b: &Operand, forms: usize) {
    for (mark, value) in settings(random, operator, a) {
        let found = oracles(random, operator, a, b, mark, value != 0);
        for room in rooms(random, operator, found.size()) {
            for _ in 0..forms {
                let good = operation(operator, a.n, a.form(random), b.form(random), mark, value).with_space(room, random.below(9));
                judge(run, &good, || found.clone());
                if random.once_in(5) {
                    check_spoiled(run, random, &good);
                }
            }
        }
    }
}

/// Where nothing is refused after all, the oracle answers for the words as they are.
fn check_spoiled(run: &mut Run, random: &mut Random, good: &Operation) {
    let mut spoiled = Owned::new(good);
    spoiled.spoil(random);
    judge(run, &spoiled.call(), || found_for(&spoiled.call()));
}

/// Random tables of each number of marks, in pairs.
fn random_tables(run: &mut Run, random: &mut Random) {
    let mut by_marks: Vec<Vec<Operand>> = (0..=60).map(|_| vec![]).collect();
    for table in built(random, 16) {
        // large ones have a run of their own
        if table.bdd.size() <= 150 || random.once_in(4) {
            by_marks[usize::from(table.n)].push(Operand::new(random, table));
        }
    }
    for tables in by_marks {
        for _ in 0..185 {
            let (a, b) = (&tables[random.below(tables.len())], &tables[random.below(tables.len())]);
            for operator in Operator::ALL {
                check_operands(run, random, operator, a, b, 2);
            }
        }
    }
}

/// Two lists of clauses, of which the second is another one or the first with a few clauses more.
fn two_lists(random: &mut Random, n: u16, many: usize, literals: usize, window: u16) -> [Vec<Valuation>; 2] {
    let first = windowed(random, n, many, literals, window);
    let second = match random.coin() {
        true => windowed(random, n, many, literals, window),
        false => [&first[..], &windowed(random, n, 3, literals, window)].concat(),
    };
    [first, second]
}

fn either_form(random: &mut Random, clauses: Vec<Valuation>) -> Meaning {
    match random.coin() {
        true => Meaning::Dnf(clauses),
        false => Meaning::Cnf(clauses),
    }
}

/// Sums of the same weights: joined, they stay within a call's limits.
fn two_sums(random: &mut Random, n: u16, modulus: usize, most: usize) -> [Meaning; 2] {
    let weights: Vec<usize> = (0..n).map(|_| 1 + random.below(most)).collect();
    [(); 2].map(|()| Meaning::Sum(Sum { weights: weights.clone(), modulus, accepted: random.word() }))
}

/// The meanings of a pair of tables over many marks.
fn large_pair(random: &mut Random, kind: usize) -> (u16, [Meaning; 2]) {
    const WINDOWS: [(u16, usize, usize, u16); 6] =
        [(60, 70, 4, 9), (60, 110, 4, 8), (40, 70, 4, 11), (30, 45, 4, 10), (50, 100, 4, 9), (60, 70, 5, 10)];
    const SUMS: [(u16, usize, usize); 5] = [(36, 64, 1), (45, 64, 1), (30, 25, 24), (40, 19, 18), (60, 11, 10)];
    match SUMS.get(kind % 11) {
        Some((n, modulus, most)) => (*n, two_sums(random, *n, *modulus, *most)),
        None => {
            let (n, many, literals, window) = WINDOWS[kind % 11 - SUMS.len()];
            (n, two_lists(random, n, many, literals, window).map(|clauses| either_form(random, clauses)))
        }
    }
}

fn large_tables(run: &mut Run, random: &mut Random) {
    for kind in 0..286 {
        let (n, meanings) = large_pair(random, kind);
        let built: Vec<Built> = meanings.into_iter().filter_map(|meaning| Built::new(n, meaning)).collect();
        let operands: Vec<Operand> = built.into_iter().map(|table| Operand::new(random, table)).collect();
        let [a, b] = &operands[..] else { continue };
        for operator in Operator::ALL {
            check_operands(run, random, operator, a, b, 2);
        }
    }
}

/// Constants, single marks, single cases, parity: the least and the greatest numbers that an answer can have.
fn corners(run: &mut Run, random: &mut Random) {
    for n in [1, 2, 59, 60] {
        let all = u64::MAX >> (64 - n);
        let one = |fixed: u64| vec![Valuation { fixed, values: fixed & 0x5555_5555_5555_5555 }];
        let mut meanings = vec![Meaning::Dnf(vec![]), Meaning::Cnf(vec![]), Meaning::Parity(all)];
        meanings.extend([1, 1 << (n - 1), all].map(|fixed| Meaning::Dnf(one(fixed))));
        meanings.extend([1, 1 << (n - 1), all].map(|fixed| Meaning::Cnf(one(fixed))));
        let operands: Vec<Operand> = meanings.into_iter().map(|meaning| Operand::new(random, Built::new(n, meaning).unwrap())).collect();
        for a in &operands {
            for b in &operands {
                Operator::ALL.into_iter().for_each(|operator| check_operands(run, random, operator, a, b, 2));
            }
        }
    }
}

/// Tables of the greatest size in and out, with the greatest room and with one node less.
fn greatest_tables(run: &mut Run, random: &mut Random) {
    let words = greatest(random);
    assert_eq!((words.len(), first_unordered(60, MOST_NODES, &words)), (3 * MOST_NODES, None));
    let no = [60, 0, 0];
    for operator in Operator::ALL {
        let right = if operator == Operator::AndNot { &no[..] } else { &words };
        let call = operation(operator, 60, &words, right, 0, 1);
        let found = found_for(&call);
        assert!(found.size() == if operator.makes_table() { MOST_NODES } else { 0 });
        for room in [MOST_NODES, MOST_NODES - 1, 2] {
            judge(run, &call.with_space(room, 1), || found.clone());
        }
    }
    for n in [1, 12, 30, 60] {
        let (words, other) = (unreduced(random, n, MOST_NODES), unreduced(random, n, 40));
        for operator in Operator::ALL {
            for (left, right) in [(&words, &other), (&other, &words)] {
                let call = operation(operator, n, left, right, n - 1, 0);
                let found = found_for(&call);
                for room in rooms(random, operator, found.size()) {
                    judge(run, &call.with_space(room, 0), || found.clone());
                }
            }
        }
    }
}

/// Numbers of marks, counts and rooms at their limits, with every length of a slice that matters.
fn limits(run: &mut Run, random: &mut Random) {
    const COUNTS: [usize; 10] = [0, 1, 2, 3, 4096, 4097, 65_537, (1 << 32) + 3, usize::MAX / 3 + 2, usize::MAX];
    const ROOMS: [usize; 9] = [0, 1, 2, 3, 4096, 4097, 65_538, usize::MAX / 12 + 1, usize::MAX];
    for n in [0, 1, 59, 60, 61, 256, 65_535] {
        let words = unreduced(random, n, MOST_NODES + 1);
        for (count, room) in COUNTS.into_iter().flat_map(|count| ROOMS.map(|room| (count, room))) {
            for operator in Operator::ALL {
                check_limit(run, random, operator, n, &words, count, room);
            }
        }
    }
}

/// The count stands for the left or the right table; the other is the constant no. Slices are short by a word or long enough.
fn check_limit(run: &mut Run, random: &mut Random, operator: Operator, n: u16, words: &[u32], count: usize, room: usize) {
    let needed = count.min(MOST_NODES + 1) * 3;
    let nodes = &words[..needed.saturating_sub(usize::from(random.once_in(8))).min(words.len())];
    let (table, other) = (Table { count, nodes }, Table { count: 1, nodes: &words[..3] });
    let (left, right) = if random.coin() { (table, other) } else { (other, table) };
    let (out, work) = (3 * room.min(MOST_NODES + 1), 12 * room.max(count).min(MOST_NODES + 1) + 192);
    let short = [(); 2].map(|()| usize::from(random.once_in(8)));
    let space = Space { room, out: out.saturating_sub(short[0]), work: work - short[1] };
    let mark = random.pick(&[0, n.saturating_sub(1), n]);
    let call = Operation { operator, n, left, right, mark, value: 1, space };
    judge(run, &call, || found_for(&call));
}

fn small_run() -> Run {
    let (mut run, random) = (Run::default(), &mut Random::new(22));
    random_tables(&mut run, random);
    run
}

fn large_run() -> Run {
    let (mut run, random) = (Run::default(), &mut Random::new(23));
    corners(&mut run, random);
    greatest_tables(&mut run, random);
    limits(&mut run, random);
    large_tables(&mut run, random);
    run
}

#[test]
fn operators_are_the_oracles() {
    let other = std::thread::spawn(small_run);
    let mut run = large_run();
    run.absorb(other.join().expect("a call of the other half differs"));
    run.finish("operators", SHARES);
}

// ---- order of refusals, replies ----

/// (x0 or x1) and x2, and x0 and x1: with them no operator comes to a constant.
const LEFT: [u32; 15] = [3, 0, 0, 3, 1, 1, 2, 0, 1, 1, 0, 2, 0, 3, 2];
const RIGHT: [u32; 12] = [3, 0, 0, 3, 1, 1, 1, 0, 1, 0, 0, 2];

/// What can be wrong with a call, each by itself.
#[derive(Clone, Copy, Debug)]
struct Wrong {
    limit: bool,
    short: bool,
    variable: bool,
    left: bool,
    right: bool,
    nodes: bool,
}

impl Wrong {
    fn all() -> Vec<Wrong> {
        let bit = |word: u32, k: u32| word >> k & 1 == 1;
        let wrong =
            |w| Wrong { limit: bit(w, 0), short: bit(w, 1), variable: bit(w, 2), left: bit(w, 3), right: bit(w, 4), nodes: bit(w, 5) };
        (0..64).map(wrong).collect()
    }

    /// The number and place that the specification gives, or 0 where the operator is answered.
    fn refusal(self, operator: Operator) -> (u64, u64) {
        match self {
            Wrong { limit: true, .. } => (LIMIT, 0),
            Wrong { short: true, .. } => (SHORT, 0),
            Wrong { variable: true, .. } if operator.takes_mark() => (VARIABLE, 259),
            Wrong { left: true, .. } => (TABLE, 4),
            Wrong { right: true, .. } if operator.is_binary() => (TABLE, 2),
            Wrong { nodes: true, .. } if operator.makes_table() => (NODES, 0),
            _ => (0, 0),
        }
    }

    fn call(self, operator: Operator) -> Owned {
        let (mut left, mut right) = (LEFT, RIGHT);
        left[12] = if self.left { 1 } else { 0 };
        right[8] = if self.right { 2 } else { 1 };
        let call = operation(operator, 3, &left, &right, if self.variable { 259 } else { 0 }, 1);
        let mut owned = Owned::new(&call.with_space(if self.nodes { 2 } else { 9 }, 0));
        owned.call.n = if self.limit { 61 } else { 3 };
        owned.call.space.work -= usize::from(self.short);
        owned
    }
}

#[test]
fn the_lowest_number_is_answered() {
    let mut run = Run::default();
    for wrong in Wrong::all() {
        for operator in Operator::ALL {
            let owned = wrong.call(operator);
            let want = judge(&mut run, &owned.call(), || found_for(&owned.call()));
            let reply = want.reply();
            assert_eq!((reply[0], reply[1]), wrong.refusal(operator), "{operator:?} {wrong:?}");
        }
    }
    run.tally.print();
}

/// Each slice that can be short, by one word; with that word there, the call is answered.
#[test]
fn every_short_slice_is_refused() {
    for operator in Operator::ALL {
        for which in 0..4 {
            let mut owned = Owned::new(&operation(operator, 3, &LEFT, &RIGHT, 0, 1).with_space(9, 0));
            let served = call(Room { words: 64, salt: 3 }, &owned.call());
            assert_eq!(served.reply.words()[0], 0);
            match which {
                0 => owned.left.1.truncate(14),
                1 if operator.is_binary() => owned.right.1.truncate(11),
                2 if operator.makes_table() => owned.call.space.out -= 1,
                _ => owned.call.space.work -= 1,
            }
            assert_eq!(
                compare(&Answer::refused(SHORT, 0), &call(Room { words: 64, salt: 3 }, &owned.call())),
                Ok(()),
                "{operator:?} {which}"
            );
        }
    }
}

#[test]
fn short_replies_to_operators() {
    let nothing = Wrong { limit: false, short: false, variable: false, left: false, right: false, nodes: false };
    let table = Wrong { left: true, ..nothing };
    for wrong in [nothing, table, Wrong { nodes: true, ..nothing }, Wrong { limit: true, ..table }] {
        for operator in Operator::ALL {
            let owned = wrong.call(operator);
            for words in 0..LEAST_REPLY {
                assert_eq!(compare_unserved(&call(Room { words, salt: 99 }, &owned.call())), Ok(()), "{operator:?} {words} words");
            }
            let want = answer(&owned.call(), || found_for(&owned.call()));
            for words in [LEAST_REPLY, 65, 1000] {
                assert_eq!(compare(&want, &call(Room { words, salt: 99 }, &owned.call())), Ok(()), "{operator:?} {words} words");
            }
        }
    }
}

// ---- the tests' own parts ----

#[test]
fn every_altered_answer_is_objected_to() {
    let mut seen = [0; 10];
    for wrong in Wrong::all() {
        for operator in Operator::ALL {
            let owned = wrong.call(operator);
            let want = answer(&owned.call(), || found_for(&owned.call()));
            let got = call(Room { words: 64, salt: 5 }, &owned.call());
            assert_eq!(objects_to_alterations(operator.name(), &want, &got), Ok(()), "{wrong:?}");
            seen[want.reply()[0] as usize] += 1;
        }
    }
    assert!([0, LIMIT, SHORT, VARIABLE, TABLE, NODES].iter().all(|number| seen[*number as usize] > 0), "{seen:?}");
}

/// The specification's own tables come out of their truth tables.
#[test]
fn canonical_tables_by_hand() {
    let canonical = |answers| Function { n: 2, answers }.canonical();
    assert_eq!(canonical(0b0000), [2, 0, 0]);
    assert_eq!(canonical(0b1111), [2, 0, 0, 2, 1, 1]);
    assert_eq!(canonical(0b1000), [2, 0, 0, 2, 1, 1, 1, 0, 1, 0, 0, 2]);
    assert_eq!(canonical(0b0110), [2, 0, 0, 2, 1, 1, 1, 0, 1, 1, 1, 0, 0, 2, 3]);
    assert_eq!(Function { n: 1, answers: 0b11 }.tree(), [1, 0, 0, 1, 1, 1, 0, 1, 1]);
    assert_eq!(Function { n: 0, answers: 1 }.canonical(), [0, 0, 0, 0, 1, 1]);
}

/// What a copy has that a reduced table has not: useless nodes, doubled ones, and nodes that nothing reaches.
fn clutter(words: &[u32]) -> [bool; 3] {
    let nodes: Vec<&[u32]> = words.chunks(3).collect();
    let mut reached = vec![false; nodes.len()];
    reached[nodes.len() - 1] = true;
    for i in (2..nodes.len()).rev() {
        if reached[i] {
            nodes[i][1..].iter().for_each(|link| reached[*link as usize] = true);
        }
    }
    let inner = 2..nodes.len();
    [
        inner.clone().any(|i| nodes[i][1] == nodes[i][2]),
        inner.clone().any(|i| (2..i).any(|j| nodes[i] == nodes[j])),
        inner.clone().any(|i| !reached[i]),
    ]
}

#[test]
fn unreduced_copies_mean_the_same() {
    let random = &mut Random::new(24);
    let mut seen = [0; 3];
    for round in 0..20_000 {
        let function = Function::cut(round % 6, random.word() & random.word());
        let (table, extra) = (function.canonical(), random.below(30));
        let copy = unreduced_copy(random, &table, extra);
        let count = copy.len() / 3;
        assert!(count <= (table.len() / 3).max(2) + extra, "{count} nodes");
        assert_eq!(first_unordered(function.n, count, &copy), None);
        assert!((0..1 << function.n).all(|case| says(count, &copy, case) == function.says(case)), "{table:?} {copy:?}");
        clutter(&copy).iter().zip(&mut seen).for_each(|(has, seen)| *seen += u32::from(*has));
    }
    assert!(seen.iter().all(|times| *times > 2_000), "{seen:?}");
}
