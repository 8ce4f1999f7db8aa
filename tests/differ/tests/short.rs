//! The short list against the oracle's, clause by clause, and its rule followed a second time; its refusals against the specification's words.
use biodivine_lib_bdd::Bdd;
use differ::answer::{compare_unserved, Answer, CLAUSES, LEAST_REPLY, LIMIT, NODES, SHORT, TABLE};
use differ::convert::as_made;
use differ::copies::forms;
use differ::corpus::{at_least, parity_of_all, windowed, Built, Meaning, Sum, MOST_NODES};
use differ::expected_operators::reduced;
use differ::expected_short::{listed, Rule};
use differ::extracting::Extractor;
use differ::lists::{boxes, cell, interval, parity, random_cells, rules, some_clauses};
use differ::operation::Table;
use differ::proved::Room;
use differ::proved_short::call;
use differ::random::Random;
use differ::reading::Valuation;
use differ::reading_extractors::paths;
use differ::reading_short::{answer, Followed};
use differ::run::{Run, Shares};
use differ::shortening::{Shortening, NAME};
use differ::spoiled::{cut, damage_words, shorter, spoiled_count, spoiled_n, spoiled_room};
use differ::truth::Function;
use differ::wrong::objects_to_alterations;

/// What the run must reach; a large call has 20 or more marks and lists ten or more clauses.
const SHARES: Shares = Shares { calls: 300_000, large: 2_500, refused: 100_000, entries: 1 };
/// So many calls must have been answered with a list.
const LISTS: u64 = 200_000;
const MANY_MARKS: u16 = 20;
const MANY_CLAUSES: u64 = 10;
/// Outputs are made for lists of up to so many clauses, and never hold as many as are written out.
const MOST_LISTED: u64 = 1_100;
const MOST_WRITTEN: u64 = 2 * MOST_LISTED + 3;

/// A function: the oracle's own table of it, and what the rule comes to.
struct Subject {
    n: u16,
    bdd: Bdd,
    followed: Followed,
}

impl Subject {
    /// The table is one that the oracle numbered; its list and the rule's are the same.
    fn new(rule: &mut Rule, n: u16, bdd: Bdd) -> Subject {
        let followed = rule.follow(&bdd);
        if let Some(list) = &followed.list {
            assert_eq!(*list, listed(&bdd), "the oracle's list is not the rule's: {n} marks, {:?}", as_made(&bdd));
        }
        Subject { n, bdd, followed }
    }

    fn of(rule: &mut Rule, function: Function) -> Subject {
        let cells = (0..1 << function.n).filter(|case| function.says(*case)).map(|case| cell(function.n, case)).collect();
        Subject::built(rule, function.n, Meaning::Dnf(cells))
    }

    fn built(rule: &mut Rule, n: u16, meaning: Meaning) -> Subject {
        let table = Built::new(n, meaning).expect("a table that a call takes");
        Subject::new(rule, n, table.bdd)
    }

    /// Words of output that the list needs.
    fn need(&self) -> usize {
        2 * self.followed.clauses.min(MOST_LISTED) as usize
    }
}

fn judge(run: &mut Run, call: &Shortening, follow: impl FnOnce() -> Followed) -> Answer {
    let want = answer(call, follow);
    let got = differ::proved_short::call(run.tally.room(), call);
    let large = call.n >= MANY_MARKS && matches!(&want, Answer::Given { values, .. } if values[0] >= MANY_CLAUSES);
    run.judge(NAME, &want, &got, large, || format!("{call:?}"));
    want
}

/// The answer for any words: the rule is followed over the table that the oracle makes of them.
fn judge_words(run: &mut Run, rule: &mut Rule, call: &Shortening) -> Answer {
    judge(run, call, || rule.follow(&reduced(call.table)))
}

// ---- small functions ----

/// Every function of n marks as its canonical table and as a tree, with every room up to one more than is needed and every number of output words
/// up to three more.
fn every_function(run: &mut Run, rule: &mut Rule, n: u16) {
    for function in Function::all(n) {
        let subject = Subject::of(rule, function);
        for nodes in [function.canonical(), function.tree()] {
            for room in 2..=subject.followed.largest + 1 {
                for out in 0..=subject.need() + 3 {
                    judge(run, &Shortening::whole(n, &nodes, room, out, out % 3), || subject.followed.clone());
                }
            }
        }
    }
}

/// Every function of four marks, as its canonical table and as a tree: just enough of everything, and something around it.
fn four_marks(run: &mut Run, random: &mut Random, rule: &mut Rule) {
    for function in Function::all(4) {
        let subject = Subject::of(rule, function);
        let (room, out) = (subject.followed.largest, subject.need());
        let some = [room - 1, room].map(|room| (room.max(2), pick_output(random, out)));
        let more = (room + 1 + random.below(4), out + random.below(4));
        for (nodes, other) in [(function.canonical(), more), (function.tree(), random.pick(&some))] {
            for (room, out) in [(room, out), other, random.pick(&some)] {
                judge(run, &Shortening::whole(4, &nodes, room, out, random.below(3)), || subject.followed.clone());
            }
        }
    }
}

/// Every table of four nodes over two marks, ordered or not: any links, any marks.
fn every_little_table(run: &mut Run, rule: &mut Rule) {
    for word in 0..4u32.pow(6) {
        let digit = |k: u32| word / 4u32.pow(k) % 4;
        let nodes = [2, 0, 0, 2, 1, 1, digit(0), digit(1), digit(2), digit(3), digit(4), digit(5)];
        judge_words(run, rule, &Shortening::whole(2, &nodes, 2 + word as usize % 4, word as usize % 5, 0));
    }
}

fn small_run() -> Run {
    let (mut run, random, rule) = (Run::default(), &mut Random::new(81), &mut Rule::new(MOST_WRITTEN));
    (0..=3).for_each(|n| every_function(&mut run, rule, n));
    every_little_table(&mut run, rule);
    four_marks(&mut run, random, rule);
    run
}

// ---- the oracle ----

/// A room around the need, below it, or above it.
fn pick_room(random: &mut Random, need: usize) -> usize {
    let around = [need - 1, need, need, need, need + 1, 2 + random.below(need), need + random.below(20)];
    random.pick(&around).clamp(2, MOST_NODES)
}

/// Words of output around the need: a clause less, a word less, exactly, an odd word more, a clause more; none at all; any number.
fn pick_output(random: &mut Random, need: usize) -> usize {
    let any = random.below(2 * need + 6);
    random.pick(&[need.saturating_sub(2), need.saturating_sub(1), need, need, need + 1, need + 2, 0, any])
}

/// One of the oracle's tables, numbered by it, renumbered, and in copies that are not reduced: they all have the one list.
fn check_subject(run: &mut Run, random: &mut Random, rule: &mut Rule, subject: &Subject, calls: usize) {
    let forms = forms(random, &subject.bdd);
    let Subject { n, followed, .. } = subject;
    for _ in 0..calls {
        let (nodes, room) = (random.pick(&[0, 1, 2, 3]), pick_room(random, followed.largest));
        let out = pick_output(random, subject.need());
        let call = Shortening::whole(*n, &forms[nodes], room, out, random.below(9));
        judge(run, &call, || followed.clone());
        if call.table.count <= MOST_SPOILED && random.once_in(4) {
            check_spoiled(run, random, rule, &call);
        }
    }
}
/// Larger tables are not spoiled: what comes out of it may have a very long list.
const MOST_SPOILED: usize = 40;

/// Spoils one part of a call, or two: the lowest number counts. The call may still be a good one.
fn check_spoiled(run: &mut Run, random: &mut Random, rule: &mut Rule, good: &Shortening) {
    let (mut call, mut count, mut nodes) = (*good, good.table.count, good.table.nodes.to_vec());
    for _ in 0..1 + random.below(2) {
        match random.below(8) {
            0 => call.n = spoiled_n(random, call.n),
            1 => count = spoiled_count(random, count),
            2 => cut(random, &mut nodes),
            3 => call.work = shorter(random, call.work),
            4 => call.out = shorter(random, call.out),
            5 => call.room = spoiled_room(random),
            _ => damage_words(random, &mut nodes),
        }
    }
    call.table = Table { count, nodes: &nodes };
    judge_words(run, rule, &call);
}

/// What a random function of n marks is made from.
fn some_meaning(random: &mut Random, n: u16, kind: usize) -> Meaning {
    match kind % 6 {
        0..=2 => Meaning::Dnf(some_clauses(random, n)),
        3 => Meaning::Cnf(some_clauses(random, n)),
        4 => Meaning::Parity((0..2 + random.below(5)).fold(0, |marks, _| marks | 1 << random.below(usize::from(n)))),
        _ => {
            let modulus = 2 + random.below(8);
            let few = 1 + usize::from(n) / 5;
            let weights = (0..n).map(|_| if random.once_in(few) { 1 + random.below(modulus - 1) } else { 0 }).collect();
            Meaning::Sum(Sum { weights, modulus, accepted: random.word() })
        }
    }
}

/// The oracle's own table; none where it is large or has very many paths.
fn some_table(random: &mut Random, n: u16, kind: usize) -> Option<Bdd> {
    let bdd = Built::new(n, some_meaning(random, n, kind))?.bdd;
    let is_small = bdd.size() <= MOST_TRIED && paths(Extractor::Dnf, bdd.size(), &as_made(&bdd)) <= MOST_PATHS;
    // joined with itself, so that the numbers are the oracle's whoever made the table
    is_small.then(|| bdd.and(&bdd))
}
const MOST_TRIED: usize = 150;
const MOST_PATHS: u64 = 300;

fn random_run() -> Run {
    let (mut run, random, rule) = (Run::default(), &mut Random::new(82), &mut Rule::new(MOST_WRITTEN));
    for round in 0..RANDOM_ROUNDS {
        let (n, kind) = (4 + (round % 57) as u16, round / 57);
        if let Some(bdd) = some_table(random, n, kind) {
            let subject = Subject::new(rule, n, bdd);
            check_subject(&mut run, random, rule, &subject, 8);
        }
        rule.forget();
    }
    run
}
const RANDOM_ROUNDS: usize = 5_000;

/// Numbers of marks, counts and rooms at their limits, with slices short by a word or long enough. The table says its last mark, over and over.
fn limits(run: &mut Run, random: &mut Random) {
    let rule = &mut Rule::new(MOST_WRITTEN);
    for n in [0, 1, 59, 60, 61, 256, 65_535] {
        let marks = u32::from(n);
        let again = (2..=MOST_NODES).flat_map(|_| [marks.saturating_sub(1), 0, 1]);
        let words: Vec<u32> = [marks, 0, 0, marks, 1, 1].into_iter().chain(again).collect();
        for count in [0, 1, 2, 3, 4095, 4096, 4097, 65_537, (1 << 32) + 3, usize::MAX / 3 + 2, usize::MAX / 24 + 1, usize::MAX] {
            for room in [0, 1, 2, 3, 4096, 4097, 65_538, (1 << 32) + 3, usize::MAX / 24 + 1, usize::MAX] {
                let short = random.below(4);
                let nodes = &words[..(3 * count.min(MOST_NODES + 1)).saturating_sub(short & 1)];
                let mut call = Shortening { n, table: Table { count, nodes }, room, out: random.below(9), work: 192 };
                if n <= 60 && count <= MOST_NODES && room <= MOST_NODES {
                    call.work = call.least_work() - (short >> 1);
                }
                judge_words(run, rule, &call);
            }
        }
    }
}

/// A list of exactly 1,024 clauses, thresholds, and long lists that are only counted; with the greatest room too.
fn long_lists(run: &mut Run, random: &mut Random) {
    let rule = &mut Rule::new(MOST_WRITTEN);
    let eleven: Vec<u16> = (0..11).map(|k| 5 * k + 3).collect();
    let full = Subject::built(rule, 60, Meaning::Dnf(parity(&eleven)));
    assert_eq!(full.followed.clauses, 1024);
    let mut subjects = vec![full];
    for (n, many) in [(8, 4), (12, 10), (12, 3), (20, 18), (20, 2), (30, 29), (60, 59), (60, 1)] {
        subjects.push(Subject::new(rule, n, at_least(n, many)));
    }
    for marks in [12, 30, 60] {
        subjects.push(Subject::built(rule, 60, Meaning::Parity(u64::MAX >> (64 - marks))));
    }
    for subject in &subjects {
        check_subject(run, random, rule, subject, 20);
        let nodes = as_made(&subject.bdd);
        for out in [subject.need().min(2048), 2048] {
            judge(run, &Shortening::whole(subject.n, &nodes, MOST_NODES, out, 0), || subject.followed.clone());
        }
    }
}

/// Tables of some hundred nodes over many marks.
fn wide_tables(run: &mut Run, random: &mut Random) {
    let rule = &mut Rule::new(MOST_WRITTEN);
    for n in [20, 25, 30, 35, 40, 45, 50, 55, 60] {
        let lists = [
            random_cells(random, n, 14),
            interval(random, n, 100),
            boxes(random, n, 5, 4),
            windowed(random, n, 12, 4, 8),
            rules(random, n, 9, 5, 12),
        ];
        for list in lists {
            let subject = Subject::built(rule, n, Meaning::Dnf(list));
            check_subject(run, random, rule, &subject, 8);
            rule.forget();
        }
    }
}

fn large_run() -> Run {
    let (mut run, random) = (Run::default(), &mut Random::new(83));
    wide_tables(&mut run, random);
    long_lists(&mut run, random);
    limits(&mut run, random);
    run
}

#[test]
fn short_lists_are_the_oracles() {
    let mut run = small_run();
    run.absorb(random_run());
    run.absorb(large_run());
    run.finish("the short list", SHARES);
    assert!(run.tally.calls() - run.tally.refused() >= LISTS, "too few calls were answered with a list");
}

/// The exact refusal though there are 2^59 clauses, or 118,264,581,564,861,424: nobody follows the rule clause by clause.
#[test]
fn very_long_lists_are_refused() {
    let (mut run, mut rule) = (Run::default(), Rule::new(MOST_WRITTEN));
    for (what, bdd, many) in
        [("parity of 60 marks", parity_of_all(60), 1 << 59), ("at least 30 of 60 marks", at_least(60, 30), 118_264_581_564_861_424)]
    {
        let (nodes, subject) = (bdd.renumbered(), Subject::new(&mut rule, 60, bdd));
        assert_eq!(subject.followed.clauses, many);
        for (room, number) in [(MOST_NODES, CLAUSES), (subject.followed.largest - 1, NODES)] {
            let call = Shortening::whole(60, &nodes, room, 2048, 0);
            let refused = judge(&mut run, &call, || subject.followed.clone());
            assert_eq!(refused.reply(), [number, 0], "{what}");
        }
    }
}

// ---- order of refusals, replies ----

/// What can be wrong with a call, each by itself.
#[derive(Clone, Copy, Debug)]
struct Wrong {
    limit: bool,
    short: bool,
    table: bool,
    nodes: bool,
    clauses: bool,
}

impl Wrong {
    fn all() -> Vec<Wrong> {
        let bit = |word: u32, k: u32| word >> k & 1 == 1;
        let wrong = |w| Wrong { limit: bit(w, 0), short: bit(w, 1), table: bit(w, 2), nodes: bit(w, 3), clauses: bit(w, 4) };
        (0..32).map(wrong).collect()
    }

    /// The number and place that the specification gives, or 0 where the call is answered.
    fn refusal(self) -> (u64, u64) {
        match self {
            Wrong { limit: true, .. } => (LIMIT, 0),
            Wrong { short: true, .. } => (SHORT, 0),
            Wrong { table: true, .. } => (TABLE, 4),
            Wrong { nodes: true, .. } => (NODES, 0),
            Wrong { clauses: true, .. } => (CLAUSES, 0),
            _ => (0, 0),
        }
    }

    /// The parity of two marks: five nodes, two clauses.
    fn words(self) -> [u32; 15] {
        [2, 0, 0, 2, 1, 1, 1, 0, 1, 1, 1, 0, if self.table { 1 } else { 0 }, 2, 3]
    }

    fn call(self, nodes: &[u32]) -> Shortening<'_> {
        let (n, room) = (if self.limit { 61 } else { 2 }, if self.nodes { 4 } else { 5 });
        let mut call = Shortening::whole(n, nodes, room, if self.clauses { 3 } else { 7 }, 0);
        call.work -= usize::from(self.short);
        call
    }
}

#[test]
fn the_lowest_number_is_answered() {
    let (mut run, mut rule) = (Run::default(), Rule::new(MOST_WRITTEN));
    for wrong in Wrong::all() {
        let nodes = wrong.words();
        let reply = judge_words(&mut run, &mut rule, &wrong.call(&nodes)).reply();
        assert_eq!((reply[0], reply[1]), wrong.refusal(), "{wrong:?}");
    }
}

#[test]
fn short_replies_to_the_short_list() {
    for wrong in Wrong::all() {
        let nodes = wrong.words();
        for words in 0..LEAST_REPLY {
            let got = call(Room { words, salt: 99 }, &wrong.call(&nodes));
            assert_eq!(compare_unserved(&got), Ok(()), "{words} words");
        }
    }
}

// ---- cases by hand ----

/// The function whose answers are given case by case, mark 0 compared first and 0 before 1.
fn of_answers(n: u16, answers: &str) -> Function {
    let place = |case: u64| (case.reverse_bits() >> (64 - n)) as usize;
    Function::from_cases(n, |case| answers.as_bytes()[place(case)] == b'1')
}

/// A clause as the specification writes it: a letter for each mark.
fn clause(text: &str) -> Valuation {
    let bits = |letters: &str| text.chars().enumerate().filter(|(_, c)| letters.contains(*c)).fold(0, |word, (mark, _)| word | 1 << mark);
    Valuation { fixed: bits("01"), values: bits("1") }
}

fn clauses(texts: &[&str]) -> Vec<Valuation> {
    texts.iter().map(|text| clause(text)).collect()
}

/// The rule, the oracle and the proved library have this list for the oracle's table in all its forms; the least room is the largest table.
fn has_list(n: u16, meaning: Meaning, list: &[Valuation]) -> usize {
    let (mut run, mut rule) = (Run::default(), Rule::new(MOST_WRITTEN));
    let subject = Subject::built(&mut rule, n, meaning);
    let largest = subject.followed.largest.max(2);
    assert_eq!(subject.followed.list.as_deref(), Some(list));
    for nodes in forms(&mut Random::new(84), &subject.bdd) {
        let answered = judge(&mut run, &Shortening::whole(n, &nodes, largest, subject.need(), 0), || subject.followed.clone());
        assert_eq!(answered.reply(), [0, 0, list.len() as u64]);
        if largest > 2 {
            let refused = judge(&mut run, &Shortening::whole(n, &nodes, largest - 1, subject.need(), 0), || subject.followed.clone());
            assert_eq!(refused.reply(), [NODES, 0]);
        }
    }
    largest
}

/// A function's cases as clauses.
fn cells(function: Function) -> Meaning {
    Meaning::Dnf((0..1 << function.n).filter(|case| function.says(*case)).map(|case| cell(function.n, case)).collect())
}

#[test]
fn short_lists_by_hand() {
    has_list(2, cells(of_answers(2, "0111")), &clauses(&["-1", "1-"]));
    has_list(2, cells(of_answers(2, "0110")), &clauses(&["10", "01"]));
    has_list(2, Meaning::Dnf(vec![]), &[]);
    has_list(2, Meaning::Cnf(vec![]), &clauses(&["--"]));
    // longer than the path list, which has 01- and 1-1
    has_list(3, cells(of_answers(3, "00110101")), &clauses(&["-11", "1-1", "01-"]));
    // the oracle's list depends on its own numbering, this one does not
    has_list(3, Meaning::Dnf(clauses(&["-01", "-10", "0--"])), &clauses(&["-10", "-01", "0--"]));
}

/// A table of five nodes whose rule calls for one of seven.
#[test]
fn more_room_than_the_input_needs() {
    let function = Function { n: 3, answers: 0b11011 };
    let subject = Subject::of(&mut Rule::new(MOST_WRITTEN), function);
    assert_eq!((subject.bdd.size(), subject.followed.largest), (5, 7));
    assert_eq!(has_list(3, cells(function), subject.followed.list.as_deref().unwrap()), 7);
}

/// Clauses that trimming makes equal stay.
#[test]
fn equal_clauses_stay() {
    let words = [112, 80, 12, 4, 80, 64, 36, 0, 110, 46, 3, 3, 61, 32];
    let list: Vec<Valuation> = words.chunks(2).map(|pair| Valuation { fixed: pair[0], values: pair[1] }).collect();
    let subject = Subject::built(&mut Rule::new(MOST_WRITTEN), 7, Meaning::Dnf(list.clone()));
    let found = subject.followed.list.unwrap();
    let both = Valuation { fixed: 3, values: 3 };
    assert_eq!(found.iter().filter(|clause| **clause == both).count(), 2);
    has_list(7, Meaning::Dnf(list), &found);
}

/// Two clauses are listed before the first table over room: NODES all the same, though the output is full.
#[test]
fn nodes_outranks_clauses() {
    let (mut run, mut rule) = (Run::default(), Rule::new(MOST_WRITTEN));
    let function = of_answers(4, "0101101001110011");
    let (subject, nodes) = (Subject::of(&mut rule, function), function.canonical());
    assert_eq!((nodes.len() / 3, subject.followed.largest), (9, 10));
    for (room, number) in [(9, NODES), (10, CLAUSES)] {
        let reply = judge_words(&mut run, &mut rule, &Shortening::whole(4, &nodes, room, 2, 0)).reply();
        assert_eq!(reply, [number, 0]);
    }
}

// ---- the tests' own parts ----

/// The rule's list says what its function says, case by case, also where the clauses overlap.
#[test]
fn the_rules_list_means_its_function() {
    let (random, mut rule) = (&mut Random::new(85), Rule::new(MOST_WRITTEN));
    for _ in 0..3_000 {
        let function = Function::cut(5, random.word());
        let list = Subject::of(&mut rule, function).followed.list.unwrap();
        let meant = Function::from_cases(5, |case| list.iter().any(|clause| case & clause.fixed == clause.values));
        assert_eq!(meant, function);
    }
}

#[test]
fn every_altered_answer_is_objected_to() {
    let (mut seen, mut rule) = ([0; 10], Rule::new(MOST_WRITTEN));
    for wrong in Wrong::all() {
        let nodes = wrong.words();
        let shortening = wrong.call(&nodes);
        let want = answer(&shortening, || rule.follow(&reduced(shortening.table)));
        let got = call(Room { words: 64, salt: 5 }, &shortening);
        assert_eq!(objects_to_alterations(NAME, &want, &got), Ok(()), "{wrong:?}");
        seen[want.reply()[0] as usize] += 1;
    }
    assert!([0, LIMIT, SHORT, TABLE, NODES, CLAUSES].iter().all(|number| seen[*number as usize] > 0), "{seen:?}");
}
