//! Tables to try: those that the oracle builds, and ordered ones that nobody reduced.
use crate::convert::{as_made, to_valuation, to_variable};
use crate::random::Random;
use crate::reading::Valuation;
use biodivine_lib_bdd::{Bdd, BddVariableSet};
use std::collections::HashMap;

/// The most nodes that a call takes.
pub const MOST_NODES: usize = 4096;

/// What a table was built for, so that the oracle's own answers can be checked too.
pub enum Meaning {
    Dnf(Vec<Valuation>),
    Cnf(Vec<Valuation>),
    Parity(u64),
    Sum(Sum),
}

impl Meaning {
    pub fn holds(&self, case: u64) -> bool {
        let all = |v: &Valuation| case & v.fixed == v.values;
        let any = |v: &Valuation| case & v.fixed != v.fixed & !v.values;
        match self {
            Meaning::Dnf(clauses) => clauses.iter().any(all),
            Meaning::Cnf(clauses) => clauses.iter().all(any),
            Meaning::Parity(marks) => (case & marks).count_ones() % 2 == 1,
            Meaning::Sum(sum) => sum.holds(case),
        }
    }

    fn build(&self, n: u16) -> Bdd {
        let set = BddVariableSet::new_anonymous(n);
        let each = |clauses: &[Valuation]| clauses.iter().copied().map(to_valuation).collect::<Vec<_>>();
        match self {
            Meaning::Dnf(clauses) => set.mk_dnf(&each(clauses)),
            Meaning::Cnf(clauses) => set.mk_cnf(&each(clauses)),
            Meaning::Parity(marks) => parity(&set, *marks),
            Meaning::Sum(sum) => sum.build(),
        }
    }
}

fn parity(set: &BddVariableSet, marks: u64) -> Bdd {
    let literals = (0..set.num_vars()).filter(|mark| marks >> mark & 1 == 1).map(|mark| set.mk_literal(to_variable(mark), true));
    literals.fold(set.mk_false(), |so_far, literal| so_far.xor(&literal))
}

/// The weights of the marks that are 1, added up modulo at most 64, give a number with its bit in `accepted`.
#[derive(Clone)]
pub struct Sum {
    pub weights: Vec<usize>,
    pub modulus: usize,
    pub accepted: u64,
}

impl Sum {
    fn holds(&self, case: u64) -> bool {
        let sum: usize = self.weights.iter().enumerate().map(|(mark, weight)| weight * (case >> mark & 1) as usize).sum();
        self.accepts(sum % self.modulus)
    }

    fn accepts(&self, sum: usize) -> bool {
        self.accepted >> sum & 1 == 1
    }

    /// Each mark and sum so far is followed up once: there is no need to join tables.
    fn build(&self) -> Bdd {
        let n = self.weights.len() as u16;
        let mut growing = Growing { nodes: vec![(n, 0, 0), (n, 1, 1)], found: HashMap::new(), followed: HashMap::new() };
        match self.follow(&mut growing, 0, 0) {
            0 => Bdd::mk_false(n),
            _ => Bdd::from_triples(&growing.nodes),
        }
    }

    fn follow(&self, growing: &mut Growing, mark: usize, sum: usize) -> u32 {
        if mark == self.weights.len() {
            return u32::from(self.accepts(sum));
        }
        if let Some(node) = growing.followed.get(&(mark, sum)) {
            return *node;
        }
        let low = self.follow(growing, mark + 1, sum);
        let high = self.follow(growing, mark + 1, (sum + self.weights[mark]) % self.modulus);
        let node = if low == high { low } else { growing.node((mark as u16, low, high)) };
        growing.followed.insert((mark, sum), node);
        node
    }
}

/// A table that grows without doubled nodes.
struct Growing {
    nodes: Vec<(u16, u32, u32)>,
    found: HashMap<(u16, u32, u32), u32>,
    followed: HashMap<(usize, usize), u32>,
}

impl Growing {
    fn node(&mut self, triple: (u16, u32, u32)) -> u32 {
        let nodes = &mut self.nodes;
        *self.found.entry(triple).or_insert_with(|| {
            nodes.push(triple);
            nodes.len() as u32 - 1
        })
    }
}

/// A table that the oracle built, with its meaning.
pub struct Built {
    pub n: u16,
    pub bdd: Bdd,
    pub meaning: Meaning,
}

impl Built {
    /// None where the table is larger than a call takes.
    pub fn new(n: u16, meaning: Meaning) -> Option<Built> {
        let bdd = meaning.build(n);
        (bdd.size() <= MOST_NODES).then_some(Built { n, bdd, meaning })
    }

    /// The words of the table: numbered as the Rust did, and as the specification does.
    pub fn tables(&self) -> [Vec<u32>; 2] {
        [as_made(&self.bdd), self.bdd.renumbered()]
    }
}

/// A clause over n marks with about `literals` of them fixed.
pub fn clause(random: &mut Random, n: u16, literals: usize) -> Valuation {
    let mut fixed = 0;
    for _ in 0..if n == 0 { 0 } else { literals } {
        fixed |= 1 << random.below(usize::from(n));
    }
    Valuation { fixed, values: random.word() & fixed }
}

fn clauses(random: &mut Random, n: u16) -> Vec<Valuation> {
    let (many, literals) = (random.below(14), 1 + random.below(6));
    (0..many).map(|_| clause(random, n, literals)).collect()
}

/// Clauses that fix the same few marks, so that the table is dense.
fn dense(random: &mut Random, n: u16) -> Vec<Valuation> {
    let fixed = (0..10).fold(0, |fixed, _| fixed | clause(random, n, 1).fixed);
    (0..random.below(200)).map(|_| Valuation { fixed, values: random.word() & fixed }).collect()
}

/// For each number of marks: constants, and `rounds` tables of each kind.
pub fn built(random: &mut Random, rounds: usize) -> Vec<Built> {
    let mut made = Vec::new();
    for n in 0..=60 {
        let empty = Valuation { fixed: 0, values: 0 };
        let mut meanings = vec![Meaning::Dnf(vec![]), Meaning::Cnf(vec![]), Meaning::Dnf(vec![empty]), Meaning::Cnf(vec![empty])];
        for _ in 0..rounds {
            meanings.push(Meaning::Dnf(clauses(random, n)));
            meanings.push(Meaning::Cnf(clauses(random, n)));
            meanings.push(Meaning::Dnf(dense(random, n)));
            meanings.push(Meaning::Parity(random.bits(n)));
        }
        made.extend(meanings.into_iter().filter_map(|meaning| Built::new(n, meaning)));
    }
    made
}

/// Tables of more than three thousand nodes: random cases of 16 marks.
pub fn large(random: &mut Random, many: usize) -> Vec<Built> {
    let fixed = (1 << 16) - 1;
    let cases = |random: &mut Random| (0..4000).map(|_| Valuation { fixed, values: random.word() & fixed }).collect();
    let made: Vec<Built> = (0..many).filter_map(|_| Built::new(16, Meaning::Dnf(cases(random)))).collect();
    assert!(made.len() == many && made.iter().all(|table| table.bdd.size() > 3000), "not large, or too large");
    made
}

/// A reduced table of 60 marks with exactly as many nodes as a call takes; it does not depend on mark 0.
pub fn greatest(random: &mut Random) -> Vec<u32> {
    let (fixed, most) = ((1 << 16) - 1, MOST_NODES);
    let tail = loop {
        let cases = (0..5_700).map(|_| Valuation { fixed, values: random.word() & fixed }).collect();
        match Built::new(16, Meaning::Dnf(cases)) {
            Some(table) if table.bdd.size() > most - 44 => break as_made(&table.bdd),
            _ => continue,
        }
    };
    let mut words: Vec<u32> = tail.chunks(3).flat_map(|node| [node[0] + 44, node[1], node[2]]).collect();
    // each mark more in front is one node more
    for mark in (1..44).rev().take(most - tail.len() / 3) {
        words.extend([mark, 0, words.len() as u32 / 3 - 1]);
    }
    words
}

/// Clauses whose literals lie close together, so that a table over many marks stays within a call's limits.
pub fn windowed(random: &mut Random, n: u16, many: usize, literals: usize, window: u16) -> Vec<Valuation> {
    let shifted = |v: Valuation, by: usize| Valuation { fixed: v.fixed << by, values: v.values << by };
    let starts = usize::from(n - window) + 1;
    (0..many).map(|_| shifted(clause(random, window, literals), random.below(starts))).collect()
}

/// An ordered table of `count` nodes over n marks, neither reduced nor reachable as a rule. Without marks it has at most two nodes.
pub fn unreduced(random: &mut Random, n: u16, count: usize) -> Vec<u32> {
    let marks = u32::from(n);
    let mut nodes = vec![marks, 0, 0, marks, 1, 1];
    let count = if n == 0 { count.min(2) } else { count };
    for i in 2..count {
        let (low, high) = (link(random, &nodes, i), link(random, &nodes, i));
        let above = nodes[3 * low].min(nodes[3 * high]) as usize;
        let near = above.saturating_sub(1 + random.below(3));
        let mark = if random.coin() { near } else { random.below(above) };
        nodes.extend([mark as u32, low as u32, high as u32]);
    }
    nodes.truncate(3 * count);
    nodes
}

/// A node below i with a mark above 0, so that it can have a parent: a late one more often than not.
fn link(random: &mut Random, nodes: &[u32], i: usize) -> usize {
    let chosen = if random.coin() { i - 1 - random.below(i.min(4)) } else { random.below(i) };
    if nodes[3 * chosen] > 0 {
        chosen
    } else {
        random.below(2)
    }
}

/// At least so many of all marks.
pub fn at_least(n: u16, many: u16) -> Bdd {
    // with this modulus the sum of n ones is itself
    let sum = Sum { weights: vec![1; usize::from(n)], modulus: usize::from(n) + 1, accepted: u64::MAX << many };
    let bdd = Built::new(n, Meaning::Sum(sum)).unwrap().bdd;
    bdd.and(&bdd)
}

/// An odd number of all marks.
pub fn parity_of_all(n: u16) -> Bdd {
    Built::new(n, Meaning::Parity((1 << n) - 1)).unwrap().bdd
}
