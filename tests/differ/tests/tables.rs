//! Inspection and evaluation against the specification's words and the oracle's answers.
use differ::answer::{Answer, LIMIT, SHORT, TABLE, VARIABLE};
use differ::convert::to_case;
use differ::corpus::{built, large, unreduced, Built, MOST_NODES};
use differ::proved;
use differ::random::Random;
use differ::reading;
use differ::tally::Tally;

fn check_inspect(tally: &mut Tally, n: u16, count: usize, nodes: &[u32]) -> Answer {
    let want = reading::inspect(n, count, nodes);
    let got = proved::inspect(tally.room(), n, count, nodes);
    tally.judge("inspect", &want, &got, || format!("n {n} count {count} nodes {nodes:?}"));
    want
}

fn check_eval(tally: &mut Tally, n: u16, count: usize, nodes: &[u32], case: u64, truth: impl FnOnce() -> bool) -> Answer {
    let want = reading::eval_in(n, count, nodes, case, truth);
    let got = proved::eval_in(tally.room(), n, count, nodes, case);
    tally.judge("eval_in", &want, &got, || format!("n {n} count {count} case {case:#x} nodes {nodes:?}"));
    want
}

/// Evaluation of a table that may be damaged: where it is ordered all the same, the answer is found from the constants up.
fn check_eval_of_any(tally: &mut Tally, n: u16, count: usize, nodes: &[u32], case: u64) -> Answer {
    check_eval(tally, n, count, nodes, case, || reading::says(count, nodes, case))
}

fn count_of(nodes: &[u32]) -> usize {
    nodes.len() / 3
}

/// A few ordered tables that show each rule: constants, one node, several, some unreduced.
fn small_tables(random: &mut Random) -> Vec<(u16, Vec<u32>)> {
    let mut tables = vec![
        (2, vec![2, 0, 0]),
        (2, vec![2, 0, 0, 2, 1, 1]),
        (0, vec![0, 0, 0, 0, 1, 1]),
        (1, vec![1, 0, 0, 1, 1, 1, 0, 1, 1]),
        (2, vec![2, 0, 0, 2, 1, 1, 1, 0, 1, 0, 0, 2]),
        (2, vec![2, 0, 0, 2, 1, 1, 1, 0, 1, 1, 1, 0, 0, 2, 3]),
        (3, vec![3, 0, 0, 3, 1, 1, 2, 0, 1, 1, 0, 2, 0, 0, 1]),
    ];
    for n in 1..=60 {
        let count = 3 + random.below(30);
        tables.push((n, unreduced(random, n, count)));
    }
    tables
}

/// What a word of a table is set to: small numbers, numbers around those it may hold, and numbers that only look right when cut.
fn damages(n: u16, nodes: &[u32], at: usize) -> Vec<u32> {
    let (old, own, count, n) = (nodes[at], (at / 3) as u32, count_of(nodes) as u32, u32::from(n));
    let neighbours = [at.saturating_sub(3), at.saturating_sub(1), at + 1, at + 3].map(|i| *nodes.get(i).unwrap_or(&0));
    let near = |word: u32| [word.wrapping_sub(1), word, word.wrapping_add(1)];
    let cut = [65_535, 65_536, 65_536 + old, (1 << 31) + old, u32::MAX - old, u32::MAX, 256 + old, old << 16];
    let mut words: Vec<u32> = [0, old, own, count, n].into_iter().flat_map(near).chain(neighbours).chain(cut).collect();
    words.sort();
    words.dedup();
    words
}

/// Each word of each table set to each damage; some stay ordered.
fn single_damages(random: &mut Random, mut each: impl FnMut(u16, &[u32])) {
    for (n, nodes) in small_tables(random) {
        for at in 0..nodes.len() {
            for word in damages(n, &nodes, at) {
                let mut damaged = nodes.clone();
                damaged[at] = word;
                each(n, &damaged);
            }
        }
    }
}

/// Short tables of random words, most of them near what a table may hold.
fn random_words(random: &mut Random) -> (u16, Vec<u32>) {
    let n = random.below(5) as u16;
    let count = 1 + random.below(8);
    let mut nodes = unreduced(random, n, count);
    nodes.resize(3 * count, 0);
    for _ in 0..1 + random.below(4) {
        let at = random.below(nodes.len());
        nodes[at] = if random.once_in(8) { random.word() as u32 } else { random.below(count + 1) as u32 };
    }
    (n, nodes)
}

/// Counts inside and outside the limits; of some, three times the count is a small number again once it is cut to a word.
const COUNTS: [usize; 18] = [
    0,
    1,
    2,
    3,
    4,
    5,
    4095,
    4096,
    4097,
    65_535,
    65_536,
    65_537,
    1 << 32,
    (1 << 32) + 3,
    usize::MAX / 3 + 1,
    usize::MAX / 3 + 2,
    1 << 63,
    usize::MAX,
];
const MARKS: [u16; 12] = [0, 1, 2, 59, 60, 61, 62, 64, 255, 256, 32_768, 65_535];

/// Every count with every number of marks, on slices that are too short, just long enough, or longer.
fn limits(random: &mut Random, mut each: impl FnMut(u16, usize, &[u32])) {
    for n in MARKS {
        let ordered = unreduced(random, n, 4097);
        for count in COUNTS {
            let needed = count.min(4097) * 3;
            for len in [0, 1, 3, needed.saturating_sub(3), needed.saturating_sub(1), needed, needed + 1, ordered.len()] {
                each(n, count, &ordered[..len.min(ordered.len())]);
            }
        }
    }
}

/// Every beginning of every small table, with counts around its own, and with rubbish past its end.
fn cut_slices(random: &mut Random, mut each: impl FnMut(u16, usize, &[u32])) {
    for (n, nodes) in small_tables(random) {
        let mut longer = nodes.clone();
        longer.extend((0..4).map(|_| random.word() as u32));
        for len in 0..=longer.len() {
            for count in [1, 2, count_of(&nodes) - 1, count_of(&nodes), count_of(&nodes) + 1] {
                each(n, count, &longer[..len]);
            }
        }
    }
}

/// Tables of the greatest size, whole or with two words damaged: the first bad node counts.
fn great_tables(random: &mut Random, tables: usize, tries: usize, mut each: impl FnMut(&mut Random, u16, &[u32])) {
    for _ in 0..tables {
        let n = random.pick(&[1, 2, 30, 59, 60]);
        let nodes = unreduced(random, n, MOST_NODES);
        each(random, n, &nodes);
        for _ in 0..tries {
            let mut damaged = nodes.clone();
            for at in [random.below(nodes.len()), random.below(nodes.len())] {
                damaged[at] = random.pick(&damages(n, &nodes, at));
            }
            each(random, n, &damaged);
        }
    }
}

#[test]
fn inspection_finds_the_first_bad_node() {
    let (mut tally, random) = (Tally::new(), &mut Random::new(1));
    for table in built(random, 6).iter().chain(&large(random, 4)) {
        for nodes in table.tables() {
            let root = Answer::given(vec![count_of(&nodes) as u64 - 1]);
            assert_eq!(check_inspect(&mut tally, table.n, count_of(&nodes), &nodes), root, "the oracle's own table is not ordered");
        }
    }
    for _ in 0..10 {
        single_damages(random, |n, nodes| {
            check_inspect(&mut tally, n, count_of(nodes), nodes);
        });
    }
    for _ in 0..1_000_000 {
        let (n, nodes) = random_words(random);
        check_inspect(&mut tally, n, count_of(&nodes), &nodes);
    }
    limits(random, |n, count, nodes| {
        check_inspect(&mut tally, n, count, nodes);
    });
    cut_slices(random, |n, count, nodes| {
        check_inspect(&mut tally, n, count, nodes);
    });
    great_tables(random, 20, 200, |_, n, nodes| {
        check_inspect(&mut tally, n, count_of(nodes), nodes);
    });
    tally.finish(1_500_000);
}

/// Cases over n marks: all of them where they are few, else random ones and some with few marks in them or missing.
fn cases(random: &mut Random, n: u16, many: usize) -> Vec<u64> {
    if n <= 6 {
        return (0..1 << n).collect();
    }
    let all = u64::MAX >> (64 - n);
    let mut chosen = vec![0, all];
    for _ in 0..many {
        let (even, sparse) = (random.bits(n), random.word() & random.word() & random.word() & all);
        chosen.push(random.pick(&[even, sparse, all & !sparse]));
    }
    chosen
}

/// The oracle's answer on its own table is ours on the table as it was made and on the table renumbered; and it is the meaning's.
fn evaluate_built(tally: &mut Tally, random: &mut Random, table: &Built, many: usize) {
    let tables = table.tables();
    for case in cases(random, table.n, many) {
        let truth = table.bdd.eval_in(&to_case(table.n, case));
        assert_eq!(truth, table.meaning.holds(case), "the oracle's table does not mean its clauses");
        for nodes in &tables {
            check_eval(tally, table.n, count_of(nodes), nodes, case, || truth);
        }
    }
}

/// Bits from n up: one, several, all; and with bits below n, which are no part of the place.
fn outside(random: &mut Random, n: u16) -> Vec<u64> {
    let mut words: Vec<u64> = (n..64).map(|mark| 1 << mark | random.bits(n)).collect();
    words.extend([u64::MAX, u64::MAX << n, 1 << 63 | 1 << n]);
    words.extend((0..8).map(|_| random.word() << n));
    words
}

#[test]
fn evaluation_is_the_oracles() {
    let (mut tally, random) = (Tally::new(), &mut Random::new(2));
    for table in built(random, 24) {
        evaluate_built(&mut tally, random, &table, 120);
        let [as_made, _] = table.tables();
        for case in outside(random, table.n) {
            check_eval_of_any(&mut tally, table.n, table.bdd.size(), &as_made, case);
        }
    }
    for table in large(random, 6) {
        evaluate_built(&mut tally, random, &table, 1_000);
    }
    for n in 0..=60 {
        for _ in 0..20 {
            let count = 1 + random.below(40);
            let nodes = unreduced(random, n, count);
            for case in cases(random, n, 60) {
                check_eval_of_any(&mut tally, n, count_of(&nodes), &nodes, case);
            }
        }
    }
    evaluate_damaged(&mut tally, random);
    tally.finish(2_000_000);
}

fn evaluate_damaged(tally: &mut Tally, random: &mut Random) {
    let case_for = |random: &mut Random, n: u16| if random.once_in(4) { random.word() } else { random.bits(n) };
    let other = &mut Random::new(3);
    for _ in 0..2 {
        single_damages(random, |n, nodes| {
            check_eval_of_any(tally, n, count_of(nodes), nodes, case_for(other, n));
        });
    }
    for _ in 0..300_000 {
        let (n, nodes) = random_words(random);
        check_eval_of_any(tally, n, count_of(&nodes), &nodes, case_for(random, n));
    }
    limits(random, |n, count, nodes| {
        check_eval_of_any(tally, n, count, nodes, case_for(other, n.min(60)));
    });
    cut_slices(random, |n, count, nodes| {
        check_eval_of_any(tally, n, count, nodes, case_for(other, n));
    });
    great_tables(random, 10, 60, |random, n, nodes| {
        check_eval_of_any(tally, n, count_of(nodes), nodes, case_for(random, n));
    });
}

/// Every choice of the four things that can be wrong with an evaluation at once: the lowest number is answered, with its own place.
#[test]
fn the_lowest_number_is_answered() {
    let mut tally = Tally::new();
    for wrong in 0..16 {
        let [limit, short, variable, table] = [0, 1, 2, 3].map(|k| wrong >> k & 1 == 1);
        let n = if limit { 61 } else { 2 };
        let mut nodes = vec![n, 0, 0, n, 1, 1, 1, 0, 1, if table { 1 } else { 0 }, 0, 2];
        nodes.truncate(if short { 11 } else { 12 });
        let case = if variable { 0xa000_0000_0000_0003 } else { 3 };
        let expected = match (limit, short, variable, table) {
            (true, ..) => Answer::refused(LIMIT, 0),
            (_, true, ..) => Answer::refused(SHORT, 0),
            (_, _, true, _) => Answer::refused(VARIABLE, 61),
            (_, _, _, true) => Answer::refused(TABLE, 3),
            _ => Answer::given(vec![1]),
        };
        assert_eq!(check_eval_of_any(&mut tally, n as u16, 4, &nodes, case), expected);
        let of_inspection = match (limit, short, table) {
            (false, false, true) => Answer::refused(TABLE, 3),
            (false, false, false) => Answer::given(vec![3]),
            _ => expected,
        };
        assert_eq!(check_inspect(&mut tally, n as u16, 4, &nodes), of_inspection);
    }
}

/// The specification's own tables, with the answers written out by hand.
#[test]
fn bench_tables() {
    let mut tally = Tally::new();
    let and = [2, 0, 0, 2, 1, 1, 1, 0, 1, 0, 0, 2];
    let xor = [2, 0, 0, 2, 1, 1, 1, 0, 1, 1, 1, 0, 0, 2, 3];
    let same = [1, 0, 0, 1, 1, 1, 0, 1, 1];
    let tables: [(u16, &[u32], &[u64]); 5] = [
        (2, &and[..3], &[0, 0, 0, 0]),
        (2, &and[..6], &[1, 1, 1, 1]),
        (2, &and, &[0, 0, 0, 1]),
        (2, &xor, &[0, 1, 1, 0]),
        (1, &same, &[1, 1]),
    ];
    for (n, nodes, truths) in tables {
        let root = Answer::given(vec![count_of(nodes) as u64 - 1]);
        assert_eq!(check_inspect(&mut tally, n, count_of(nodes), nodes), root);
        for (case, truth) in truths.iter().enumerate() {
            let answer = check_eval_of_any(&mut tally, n, count_of(nodes), nodes, case as u64);
            assert_eq!(answer, Answer::given(vec![*truth]));
        }
    }
}
