//! The two extractors against the oracle's lists and a recursion of the tests' own, and their refusals against the specification's words.
use differ::answer::{compare, compare_unserved, Answer, CLAUSES, LEAST_REPLY, LIMIT, SHORT, TABLE};
use differ::convert::as_made;
use differ::copies::{damage, forms};
use differ::corpus::{built, large, unreduced, Built, Meaning, Sum, MOST_NODES};
use differ::expected_extractors::listed as oracles_list;
use differ::extracting::{Extraction, Extractor};
use differ::operation::Table;
use differ::proved::Room;
use differ::proved_extractors::call;
use differ::random::Random;
use differ::reading::{says, Valuation};
use differ::reading_extractors::{answer, listed, paths};
use differ::run::{Run, Shares};
use differ::spoiled::{cut, damage_words, shorter, spoiled_count, spoiled_n};
use differ::truth::Function;
use differ::wrong::objects_to_alterations;
use std::time::{Duration, Instant};

/// What the runs must reach together; a large call has 30 or more marks and lists or refuses 100 or more paths.
const SHARES: Shares = Shares { calls: 1_000_000, large: 20_000, refused: 50_000, entries: 2 };
const MANY_MARKS: u16 = 30;
const MANY_PATHS: u64 = 100;
/// Lists longer than this are not written out.
const MOST_LISTED: u64 = 3_000;

fn judge(run: &mut Run, extraction: &Extraction, paths: u64, list: impl FnOnce() -> Vec<Valuation>) -> Answer {
    let want = answer(extraction, || paths, list);
    let got = call(run.tally.room(), extraction);
    let large = extraction.n >= MANY_MARKS && paths >= MANY_PATHS && [0, CLAUSES].contains(&want.reply()[0]);
    run.judge(extraction.extractor.name(), &want, &got, large, || format!("{extraction:?}"));
    want
}

/// The answer by the tests' own reading, for any words.
fn judge_by_reading(run: &mut Run, extraction: &Extraction) -> Answer {
    let Extraction { extractor, table: Table { count, nodes }, .. } = *extraction;
    let many = if differ::reading_extractors::refusal(extraction).is_none() { paths(extractor, count, nodes) } else { 0 };
    judge(run, extraction, many, || listed(extractor, count, nodes))
}

/// Words of output around the need: a clause less, a word less, exactly, an odd word more, a clause more; none at all; any number.
fn outputs(random: &mut Random, paths: u64) -> Vec<usize> {
    let need = 2 * paths.min(MOST_LISTED) as usize;
    if paths > MOST_LISTED {
        return vec![0, 1, 20, random.below(need)];
    }
    let any = random.below(2 * need + 6);
    let around = [need.wrapping_sub(2), need.wrapping_sub(1), need, need + 1, need + 2, 0, any];
    around.into_iter().filter(|size| *size <= 2 * need + 6).collect()
}

// ---- small tables ----

/// Every function of n marks as its canonical table and as a tree, with every number of output words up to two more than are needed.
fn every_function(run: &mut Run, n: u16) {
    for function in Function::all(n) {
        for nodes in [function.canonical(), function.tree()] {
            for extractor in Extractor::ALL {
                let need = 2 * paths(extractor, nodes.len() / 3, &nodes) as usize;
                for out in 0..=need + 2 {
                    judge_by_reading(run, &Extraction::whole(extractor, n, &nodes, out, out % 3));
                }
            }
        }
    }
}

/// Every table of four nodes over two marks, ordered or not: any links, any marks.
fn every_little_table(run: &mut Run) {
    for word in 0..4u32.pow(6) {
        let digit = |k: u32| word / 4u32.pow(k) % 4;
        let nodes = [2, 0, 0, 2, 1, 1, digit(0), digit(1), digit(2), digit(3), digit(4), digit(5)];
        for extractor in Extractor::ALL {
            for out in [0, 4, 8] {
                judge_by_reading(run, &Extraction::whole(extractor, 2, &nodes, out, 0));
            }
        }
    }
}

fn small_run() -> Run {
    let mut run = Run::default();
    (0..=3).for_each(|n| every_function(&mut run, n));
    every_little_table(&mut run);
    run
}

// ---- the oracle ----

/// One of the oracle's tables: its list clause by clause for the forms that are the oracle's, the reading's for those that are not reduced.
fn check_table(run: &mut Run, random: &mut Random, n: u16, bdd: &biodivine_lib_bdd::Bdd, rounds: usize) {
    let forms = forms(random, bdd);
    for extractor in Extractor::ALL {
        let many = paths(extractor, bdd.size(), &forms[0]);
        let list = if many <= MOST_LISTED { oracles_list(extractor, bdd) } else { vec![] };
        let sizes: Vec<usize> = (0..rounds).flat_map(|_| outputs(random, many)).collect();
        for out in sizes {
            let own = &forms[random.below(2)];
            judge(run, &Extraction::whole(extractor, n, own, out, random.below(9)), many, || list.clone());
            let unreduced = Extraction::whole(extractor, n, &forms[2 + random.below(2)], out, 0);
            if paths(extractor, unreduced.table.count, unreduced.table.nodes) <= 4 * MOST_LISTED {
                judge_by_reading(run, &unreduced);
            }
            if random.once_in(6) {
                check_spoiled(run, random, &unreduced);
            }
        }
    }
}

/// Spoils one part of a call, or two: the lowest number counts. The call may still be a good one.
fn check_spoiled(run: &mut Run, random: &mut Random, good: &Extraction) {
    let (mut call, mut count, mut nodes) = (*good, good.table.count, good.table.nodes.to_vec());
    for _ in 0..1 + random.below(2) {
        match random.below(7) {
            0 => call.n = spoiled_n(random, call.n),
            1 => count = spoiled_count(random, count),
            2 => cut(random, &mut nodes),
            3 => call.work = shorter(random, call.work),
            4 => call.out = shorter(random, call.out),
            _ => damage_words(random, &mut nodes),
        }
    }
    call.table = Table { count, nodes: &nodes };
    judge_by_reading(run, &call);
}

fn random_run() -> Run {
    let (mut run, random) = (Run::default(), &mut Random::new(71));
    for table in built(random, RANDOM_ROUNDS) {
        check_table(&mut run, random, table.n, &table.bdd, 2);
    }
    run
}
const RANDOM_ROUNDS: usize = 130;

/// Sums over many marks: tables with few nodes and many paths, and with a few thousand paths.
fn sums(run: &mut Run, random: &mut Random) {
    for round in 0..1_500 {
        let (n, modulus) = (30 + round % 31, 2 + random.below(40));
        let weights = (0..n).map(|_| if random.once_in(4) { 1 + random.below(modulus - 1) } else { 0 }).collect();
        let sum = Sum { weights, modulus, accepted: random.word() & random.word() };
        if let Some(table) = Built::new(n as u16, Meaning::Sum(sum)) {
            check_table(run, random, table.n, &table.bdd, 2);
        }
    }
}

/// Ordered tables that nobody reduced, of every size up to the greatest, and damaged ones.
fn unreduced_tables(run: &mut Run, random: &mut Random) {
    for round in 0..30_000 {
        let n = (round % 61) as u16;
        let count = if round % 200 == 0 { MOST_NODES } else { 1 + random.below(40) };
        let mut nodes = unreduced(random, n, count);
        if random.once_in(3) {
            let at = random.below(nodes.len());
            nodes[at] = damage(random, &nodes, at);
        }
        for extractor in Extractor::ALL {
            let sound = Extraction::whole(extractor, n, &nodes, 0, 0);
            let is_sound = differ::reading_extractors::refusal(&sound).is_none();
            let many = if is_sound { paths(extractor, nodes.len() / 3, &nodes) } else { 3 };
            for out in outputs(random, many) {
                judge_by_reading(run, &Extraction::whole(extractor, n, &nodes, out, 0));
            }
        }
    }
}

/// Numbers of marks and counts at their limits, with slices short by a word or long enough.
fn limits(run: &mut Run, random: &mut Random) {
    for n in [0, 1, 59, 60, 61, 256, 65_535] {
        let words = unreduced(random, n.min(60), MOST_NODES + 1);
        for count in [0, 1, 2, 3, 4095, 4096, 4097, 65_537, (1 << 32) + 3, usize::MAX / 3 + 2, usize::MAX / 12 + 1, usize::MAX] {
            for (extractor, short) in Extractor::ALL.into_iter().flat_map(|extractor| (0..4).map(move |short| (extractor, short))) {
                let needed = 3 * count.min(MOST_NODES + 1);
                let nodes = &words[..needed.saturating_sub(short & 1).min(words.len())];
                let work = 12 * count.min(MOST_NODES + 1) + 192 - (short >> 1);
                let out = random.below(9);
                judge_by_reading(run, &Extraction { extractor, n, table: Table { count, nodes }, out, work });
            }
        }
    }
}

/// Lists of exactly 1,024 clauses: a parity of eleven marks has so many paths to either constant.
fn full_lists(run: &mut Run, random: &mut Random) {
    let table = Built::new(60, Meaning::Parity(0x0842_1084_2108_4210 & ((1 << 56) - 1))).unwrap();
    assert_eq!(paths(Extractor::Dnf, table.bdd.size(), &as_made(&table.bdd)), 1024);
    check_table(run, random, 60, &table.bdd, 4);
    for table in large(random, 3) {
        check_table(run, random, 16, &table.bdd, 1);
    }
}

fn large_run() -> Run {
    let (mut run, random) = (Run::default(), &mut Random::new(72));
    full_lists(&mut run, random);
    limits(&mut run, random);
    sums(&mut run, random);
    unreduced_tables(&mut run, random);
    run
}

#[test]
fn extractors_are_the_oracles() {
    let other = std::thread::spawn(large_run);
    let (mut run, random) = (small_run(), random_run());
    run.absorb(random);
    run.absorb(other.join().expect("a call of the other half differs"));
    run.finish("extractors", SHARES);
}

/// A table with 2^50 paths and room for ten clauses is refused with the exact number, at once; one with 2^60 cases too.
#[test]
fn many_paths_are_counted_at_once() {
    let start = Instant::now();
    for (marks, wanted) in [(51, 1 << 50), (60, 1 << 59)] {
        let table = Built::new(60, Meaning::Parity(u64::MAX >> (64 - marks))).unwrap();
        for extractor in Extractor::ALL {
            let nodes = table.bdd.renumbered();
            let got = call(Room { words: 64, salt: 1 }, &Extraction::whole(extractor, 60, &nodes, 20, 0));
            assert_eq!(compare(&Answer::refused(CLAUSES, wanted), &got), Ok(()));
        }
    }
    // without reducing there are as many paths as cases
    let useless: Vec<u32> = [60, 0, 0, 60, 1, 1].into_iter().chain((0..60).flat_map(|k| [59 - k, k + 1, k + 1])).collect();
    let got = call(Room { words: 64, salt: 1 }, &Extraction::whole(Extractor::Dnf, 60, &useless, 20, 0));
    assert_eq!(compare(&Answer::refused(CLAUSES, 1 << 60), &got), Ok(()));
    assert!(start.elapsed() < Duration::from_secs(1), "it took {:?}", start.elapsed());
}

// ---- order of refusals, replies ----

/// What can be wrong with a call, each by itself.
#[derive(Clone, Copy, Debug)]
struct Wrong {
    limit: bool,
    short: bool,
    table: bool,
    clauses: bool,
}

impl Wrong {
    fn all() -> Vec<Wrong> {
        let bit = |word: u32, k: u32| word >> k & 1 == 1;
        (0..16).map(|w| Wrong { limit: bit(w, 0), short: bit(w, 1), table: bit(w, 2), clauses: bit(w, 3) }).collect()
    }

    /// The number and place that the specification gives, or 0 where the call is answered.
    fn refusal(self) -> (u64, u64) {
        match self {
            Wrong { limit: true, .. } => (LIMIT, 0),
            Wrong { short: true, .. } => (SHORT, 0),
            Wrong { table: true, .. } => (TABLE, 4),
            Wrong { clauses: true, .. } => (CLAUSES, 2),
            _ => (0, 0),
        }
    }

    /// The parity of two marks: two paths to either constant.
    fn nodes(self) -> [u32; 15] {
        [2, 0, 0, 2, 1, 1, 1, 0, 1, 1, 1, 0, if self.table { 1 } else { 0 }, 2, 3]
    }

    fn call(self, extractor: Extractor, nodes: &[u32]) -> Extraction<'_> {
        let mut call = Extraction::whole(extractor, if self.limit { 61 } else { 2 }, nodes, if self.clauses { 3 } else { 7 }, 0);
        call.work -= usize::from(self.short);
        call
    }
}

#[test]
fn the_lowest_number_is_answered() {
    let mut run = Run::default();
    for wrong in Wrong::all() {
        for extractor in Extractor::ALL {
            let nodes = wrong.nodes();
            let reply = judge_by_reading(&mut run, &wrong.call(extractor, &nodes)).reply();
            assert_eq!((reply[0], reply[1]), wrong.refusal(), "{extractor:?} {wrong:?}");
        }
    }
}

#[test]
fn short_replies_to_extractors() {
    for wrong in Wrong::all() {
        for extractor in Extractor::ALL {
            let nodes = wrong.nodes();
            for words in 0..LEAST_REPLY {
                let got = call(Room { words, salt: 99 }, &wrong.call(extractor, &nodes));
                assert_eq!(compare_unserved(&got), Ok(()), "{extractor:?} {words} words");
            }
        }
    }
}

// ---- the specification's own tables, and the tests' own parts ----

#[test]
fn lists_by_hand() {
    let (dnf, cnf) = (Extractor::Dnf, Extractor::Cnf);
    let list = |extractor, n: u16, nodes: &[u32]| {
        let got = call(Room { words: 64, salt: 8 }, &Extraction::whole(extractor, n, nodes, 9, 0));
        let words = match &got.lent[0] {
            differ::lent::Buffer::Wide(lent) => lent.words().to_vec(),
            differ::lent::Buffer::Narrow(_) => panic!("a clause output has wide words"),
        };
        assert_eq!(got.reply.words()[..2], [0, 0]);
        words[..2 * got.reply.words()[2] as usize].to_vec()
    };
    let no = [2, 0, 0];
    let yes = [2, 0, 0, 2, 1, 1];
    assert_eq!((list(dnf, 2, &no), list(cnf, 2, &no)), (vec![], vec![0, 0]));
    assert_eq!((list(dnf, 2, &yes), list(cnf, 2, &yes)), (vec![0, 0], vec![]));
    // both marks
    let and = [2, 0, 0, 2, 1, 1, 1, 0, 1, 0, 0, 2];
    assert_eq!((list(dnf, 2, &and), list(cnf, 2, &and)), (vec![3, 3], vec![1, 1, 3, 2]));
    // a node that decides nothing
    let same = [1, 0, 0, 1, 1, 1, 0, 1, 1];
    assert_eq!((list(dnf, 1, &same), list(cnf, 1, &same)), (vec![1, 0, 1, 1], vec![]));
}

/// The reading's list is the oracle's on reduced tables, and means its table on any.
#[test]
fn the_readings_list_is_the_oracles() {
    let random = &mut Random::new(73);
    for table in built(random, 2) {
        let nodes = as_made(&table.bdd);
        for extractor in Extractor::ALL.into_iter().filter(|extractor| paths(*extractor, table.bdd.size(), &nodes) <= MOST_LISTED) {
            assert_eq!(listed(extractor, table.bdd.size(), &nodes), oracles_list(extractor, &table.bdd));
        }
    }
    for _ in 0..2_000 {
        let n = 1 + random.below(6) as u16;
        let nodes = unreduced(random, n, 12);
        for case in 0..1 << n {
            let truth = says(nodes.len() / 3, &nodes, case);
            let hold = listed(Extractor::Dnf, nodes.len() / 3, &nodes).iter().filter(|v| case & v.fixed == v.values).count();
            let fail = listed(Extractor::Cnf, nodes.len() / 3, &nodes).iter().filter(|v| (case ^ v.values) & v.fixed == v.fixed).count();
            assert_eq!((hold, fail), (usize::from(truth), usize::from(!truth)));
        }
    }
}

#[test]
fn every_altered_answer_is_objected_to() {
    let mut seen = [0; 10];
    for wrong in Wrong::all() {
        for extractor in Extractor::ALL {
            let nodes = wrong.nodes();
            let extraction = wrong.call(extractor, &nodes);
            let want = answer(&extraction, || paths(extractor, 5, &nodes), || listed(extractor, 5, &nodes));
            let got = call(Room { words: 64, salt: 5 }, &extraction);
            assert_eq!(objects_to_alterations(extractor.name(), &want, &got), Ok(()), "{wrong:?}");
            seen[want.reply()[0] as usize] += 1;
        }
    }
    assert!([0, LIMIT, SHORT, TABLE, CLAUSES].iter().all(|number| seen[*number as usize] > 0), "{seen:?}");
}
