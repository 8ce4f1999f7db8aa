//! Times each operator of the proved library against the oracle on the same tables: a command of its own, and no test.
//!   cargo run --release --offline -p differ --bin bench_operators [--each] [--ours NAME]
//! `--ours` runs our side alone on the inputs whose names hold NAME, for a profiler.
//! A ratio is the oracle's time by ours: above 1, ours is the quicker one.
use biodivine_lib_bdd::Bdd;
use differ::convert::to_variable;
use differ::corpus::{windowed, Built, Meaning, Sum, MOST_NODES};
use differ::expected_operators::found;
use differ::operation::{Operation, Operator, Space, Table};
use differ::proved_operators::call_into;
use differ::random::Random;
use differ::reading::Valuation;
use differ::reading_operators::Found;
use differ::timing::{option, report, run_ours, time, Timed};
use std::hint::black_box;
use std::io::Write;
use std::time::Duration;

/// Each side is timed so many times; the middle time counts.
const TIMES: usize = 15;

/// What a call is lent: made once, cleared before each call.
struct Buffers {
    out: Vec<u32>,
    work: Vec<u32>,
    reply: Vec<u64>,
}

impl Buffers {
    fn new() -> Buffers {
        Buffers { out: vec![0; 3 * MOST_NODES], work: vec![0; 12 * MOST_NODES + 192], reply: vec![0; 64] }
    }

    fn time(&mut self, call: &Operation) -> Duration {
        self.out.fill(0);
        self.work.fill(0);
        time(|| assert_eq!(call_into(call, &mut self.out, &mut self.work, &mut self.reply), 1))
    }

    /// The call that was just made came to this.
    fn holds(&self, wanted: &Found) -> bool {
        match wanted {
            Found::Table(words) => self.reply[..3] == [0, 0, wanted.size() as u64] && self.out[..words.len()] == words[..],
            Found::Number(number) => self.reply[..3] == [0, 0, *number],
        }
    }
}

/// Two tables over the same marks.
struct Pair {
    shape: &'static str,
    n: u16,
    tables: [Bdd; 2],
}

impl Pair {
    /// None where a table is larger than a call takes, or smaller than is of interest.
    fn new(shape: &'static str, n: u16, meanings: [Meaning; 2]) -> Option<Pair> {
        let [a, b] = meanings.map(|meaning| Built::new(n, meaning).filter(|table| table.bdd.size() >= 50));
        Some(Pair { shape, n, tables: [a?.bdd, b?.bdd] })
    }

    fn words(&self) -> [Vec<u32>; 2] {
        [self.tables[0].renumbered(), self.tables[1].renumbered()]
    }

    fn name(&self) -> String {
        format!("{}, {} and {} nodes", self.shape, self.tables[0].size(), self.tables[1].size())
    }

    /// A mark in the middle of those that the left table depends on.
    fn mark(&self) -> u16 {
        let mut marks: Vec<usize> = self.tables[0].support_set().iter().map(|mark| mark.to_index()).collect();
        marks.sort();
        marks[marks.len() / 2] as u16
    }
}

/// Random cases over the last 16 marks.
fn dense(random: &mut Random, n: u16, many: usize) -> Meaning {
    let fixed = ((1 << 16) - 1) << (n - 16);
    Meaning::Dnf((0..many).map(|_| Valuation { fixed, values: random.word() & fixed }).collect())
}

fn two_sums(random: &mut Random, n: u16, modulus: usize, most: usize) -> [Meaning; 2] {
    let weights: Vec<usize> = (0..n).map(|_| 1 + random.below(most)).collect();
    [(); 2].map(|()| Meaning::Sum(Sum { weights: weights.clone(), modulus, accepted: random.word() }))
}

/// Four shapes, from 50 to 4,000 nodes each.
fn pairs() -> Vec<Pair> {
    const RULES: [(u16, usize, usize, u16); 9] = [
        (60, 25, 3, 8),
        (60, 60, 3, 8),
        (60, 60, 4, 9),
        (60, 80, 5, 10),
        (40, 30, 3, 10),
        (40, 80, 4, 11),
        (30, 40, 4, 10),
        (20, 25, 3, 20),
        (20, 30, 4, 16),
    ];
    let random = &mut Random::new(31);
    let mut made = Vec::new();
    for (n, many, literals, window) in RULES {
        made.push(Pair::new("rules", n, [(); 2].map(|()| Meaning::Dnf(windowed(random, n, many, literals, window)))));
        made.push(Pair::new("clauses", n, [(); 2].map(|()| Meaning::Cnf(windowed(random, n, many, literals, window)))));
    }
    for (n, many) in [(16, 5), (60, 30), (16, 100), (40, 300), (60, 600), (16, 1500), (60, 2500), (60, 5_400)] {
        made.push(Pair::new("cases", n, [(); 2].map(|()| dense(random, n, many))));
    }
    for (n, modulus, most) in [(20, 64, 1), (40, 64, 1), (60, 64, 1), (30, 5, 4), (60, 11, 10), (60, 40, 39), (60, 64, 63)] {
        made.push(Pair::new("sums", n, two_sums(random, n, modulus, most)));
    }
    made.into_iter().flatten().collect()
}

/// The oracle's call alone, without the renumbering that a comparison needs.
fn oracles_call(operator: Operator, [a, b]: &[Bdd; 2], mark: u16) {
    let mark = to_variable(mark);
    match operator {
        Operator::Not => drop(black_box(a.not())),
        Operator::And => drop(black_box(a.and(b))),
        Operator::Or => drop(black_box(a.or(b))),
        Operator::AndNot => drop(black_box(a.and_not(b))),
        Operator::ForAll => drop(black_box(a.var_for_all(mark))),
        Operator::Exists => drop(black_box(a.var_exists(mark))),
        Operator::Restrict => drop(black_box(a.var_restrict(mark, true))),
        Operator::Support => drop(black_box(a.support_set())),
        Operator::Cardinality => drop(black_box(a.exact_cardinality())),
    }
}

fn time_oracle(operator: Operator, tables: &[Bdd; 2], mark: u16) -> Duration {
    time(|| oracles_call(operator, tables, mark))
}

/// The call of an operator on a pair, its words being lent.
fn call_on<'a>(operator: Operator, pair: &Pair, words: &'a [Vec<u32>; 2]) -> Operation<'a> {
    let [left, right] = [Table::whole(&words[0]), Table::whole(&words[1])];
    let space = Space { room: MOST_NODES, out: 3 * MOST_NODES, work: 12 * MOST_NODES + 192 };
    Operation { operator, n: pair.n, left, right, mark: pair.mark(), value: 1, space }
}

/// Results first, then times, each side in turn. None where the result is over the greatest room: the oracle has none.
fn time_pair(buffers: &mut Buffers, operator: Operator, pair: &Pair) -> Option<Timed> {
    let words = pair.words();
    let call = call_on(operator, pair, &words);
    let wanted = found(operator, &pair.tables[0], &pair.tables[1], call.mark, true);
    if wanted.size() > MOST_NODES {
        return None;
    }
    buffers.time(&call);
    assert!(buffers.holds(&wanted), "{operator:?} differs from the oracle on {} over {} marks", pair.shape, pair.n);
    let input = format!("{} to {}", pair.name(), wanted.size());
    Some(Timed::new(input, TIMES, || buffers.time(&call), || time_oracle(operator, &pair.tables, call.mark)))
}

fn compare_times(buffers: &mut Buffers) {
    let pairs = pairs();
    let sizes = || pairs.iter().flat_map(|pair| pair.tables.iter().map(Bdd::size));
    println!("{} pairs of tables, {} to {} nodes, room {MOST_NODES}", pairs.len(), sizes().min().unwrap(), sizes().max().unwrap());
    println!("ratio: the oracle's time by ours");
    for operator in Operator::ALL {
        let timed: Vec<Timed> = pairs.iter().filter_map(|pair| time_pair(buffers, operator, pair)).collect();
        report(operator.name(), &timed);
    }
}

/// Sums over every second mark, and the last mark one way or the other: every pair of sums is met at every mark, and the answer is no.
fn defeating(random: &mut Random, modulus: usize, first: usize) -> Bdd {
    let weight = |random: &mut Random, mark: usize| if mark % 2 == first { 1 + random.below(modulus - 1) } else { 0 };
    let weights = (0..60).map(|mark| weight(random, mark)).collect();
    let sum = Built::new(60, Meaning::Sum(Sum { weights, modulus, accepted: 1 })).expect("it is small");
    sum.bdd.and(&Bdd::mk_literal(60, to_variable(59), first == 1))
}

/// One call on operands made to defeat a memo; with a memo that forgets it may take minutes, so it is announced first.
fn time_defeating(buffers: &mut Buffers, modulus: usize) {
    let random = &mut Random::new(32);
    let tables = [defeating(random, modulus, 0), defeating(random, modulus + 1, 1)];
    let words = [tables[0].renumbered(), tables[1].renumbered()];
    print!("against a memo, even marks {} nodes, odd marks {} nodes, room {MOST_NODES}: ", tables[0].size(), tables[1].size());
    std::io::stdout().flush().expect("the output is closed");
    let space = Space { room: MOST_NODES, out: 3 * MOST_NODES, work: 12 * MOST_NODES + 192 };
    let [left, right] = [Table::whole(&words[0]), Table::whole(&words[1])];
    let ours = buffers.time(&Operation { operator: Operator::And, n: 60, left, right, mark: 0, value: 0, space });
    assert!(buffers.holds(&Found::Table(tables[0].and(&tables[1]).renumbered())), "and differs from the oracle");
    println!("{:.1} ms (oracle {:.1} ms)", ours.as_secs_f64() * 1e3, time_oracle(Operator::And, &tables, 0).as_secs_f64() * 1e3);
}

fn profile(buffers: &mut Buffers, wanted: &str) {
    for pair in pairs() {
        let words = pair.words();
        for operator in Operator::ALL {
            let name = format!("{} of {}", operator.name(), pair.name());
            if name.contains(wanted) {
                run_ours(&name, || buffers.time(&call_on(operator, &pair, &words)));
            }
        }
    }
}

fn main() {
    let mut buffers = Buffers::new();
    if let Some(name) = option("--ours") {
        return profile(&mut buffers, &name);
    }
    compare_times(&mut buffers);
    // about 460 nodes each, then about 830
    for modulus in [20, 40] {
        time_defeating(&mut buffers, modulus);
    }
}
