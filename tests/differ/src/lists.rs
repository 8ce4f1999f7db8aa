//! Lists of clauses to build from, and what they come to by truth tables.
use crate::building::{all_marks, Builder};
use crate::corpus::{clause, windowed, MOST_NODES};
use crate::random::Random;
use crate::reading::{malformed, Valuation};
use crate::reading_builders::Runs;
use crate::truth::Function;
use std::collections::BTreeMap;

pub fn shuffle<T>(random: &mut Random, list: &mut [T]) {
    for i in (1..list.len()).rev() {
        list.swap(i, random.below(i + 1));
    }
}

/// A case over n marks as a clause.
pub fn cell(n: u16, case: u64) -> Valuation {
    let fixed = all_marks(n);
    Valuation { fixed, values: case & fixed }
}

pub fn random_cells(random: &mut Random, n: u16, many: usize) -> Vec<Valuation> {
    (0..many).map(|_| cell(n, random.word())).collect()
}

/// Neighbouring cells, mark 0 being the highest digit.
pub fn interval(random: &mut Random, n: u16, many: usize) -> Vec<Valuation> {
    let start = random.bits(n);
    let digits = |number: u64| if n == 0 { 0 } else { number.reverse_bits() >> (64 - n) };
    (0..many as u64).map(|i| cell(n, digits(start.wrapping_add(i) & all_marks(n)))).collect()
}

/// The cells of several boxes, each with `free` neighbouring marks free.
pub fn boxes(random: &mut Random, n: u16, many: usize, free: u16) -> Vec<Valuation> {
    let mut cells = Vec::new();
    for _ in 0..many {
        let (corner, first) = (random.word(), random.below(usize::from(n - free) + 1));
        cells.extend((0..1 << free).map(|x| cell(n, corner & !(all_marks(free) << first) | x << first)));
    }
    cells
}

/// Clauses of exactly so many literals, which lie within a window.
pub fn rules(random: &mut Random, n: u16, many: usize, literals: u32, window: u16) -> Vec<Valuation> {
    let rule = |random: &mut Random| {
        let (first, mut fixed) = (random.below(usize::from(n - window) + 1), 0u64);
        while fixed.count_ones() < literals {
            fixed |= 1 << (first + random.below(usize::from(window)));
        }
        Valuation { fixed, values: random.word() & fixed }
    };
    (0..many).map(|_| rule(random)).collect()
}

/// A clause for each odd choice of these marks: together, as a DNF, their parity; as a CNF, its complement or itself.
pub fn parity(marks: &[u16]) -> Vec<Valuation> {
    let chosen = |choice: u64| marks.iter().enumerate().fold(0, |word, (k, mark)| word | (choice >> k & 1) << mark);
    let odd = (0..1u64 << marks.len()).filter(|choice| choice.count_ones() % 2 == 1);
    odd.map(|choice| Valuation { fixed: chosen(u64::MAX), values: chosen(choice) }).collect()
}

/// Parities of `width` neighbouring marks, a new one every `step` marks.
pub fn parity_chain(n: u16, width: u16, step: usize) -> Vec<Valuation> {
    let starts = (0..=n - width).step_by(step);
    starts.flat_map(|first| parity(&(first..first + width).collect::<Vec<_>>())).collect()
}

/// What a list says of a case.
pub fn holds(builder: Builder, clauses: &[Valuation], case: u64) -> bool {
    match builder.is_dnf() {
        true => clauses.iter().any(|clause| case & clause.fixed == clause.values),
        false => clauses.iter().all(|clause| (case ^ !clause.values) & clause.fixed != 0),
    }
}

/// All lists of exactly so many of these clauses, in every order.
pub fn lists_of(clauses: &[Valuation], many: usize) -> Vec<Vec<Valuation>> {
    (0..many).fold(vec![vec![]], |lists, _| {
        lists.iter().flat_map(|list| clauses.iter().map(|clause| [&list[..], &[*clause]].concat())).collect()
    })
}

pub fn well_formed(n: u16) -> Vec<Valuation> {
    let words = || 0..1u64 << n;
    let all = words().flat_map(|fixed| words().map(move |values| Valuation { fixed, values }));
    all.filter(|clause| !malformed(n, *clause)).collect()
}

/// Clauses of each kind over n marks: sparse, dense over few marks, close together, full, with the empty one, doubled, and none.
pub fn some_clauses(random: &mut Random, n: u16) -> Vec<Valuation> {
    let (many, literals) = (random.below(14), 1 + random.below(6));
    let few = (0..8).fold(0, |fixed, _| fixed | clause(random, n, 1).fixed);
    let mut list: Vec<Valuation> = match random.below(6) {
        0 | 1 => (0..many).map(|_| clause(random, n, literals)).collect(),
        2 => (0..3 * many).map(|_| Valuation { fixed: few, values: random.word() & few }).collect(),
        3 => random_cells(random, n, many),
        4 => interval(random, n, 4 * many),
        _ if n >= 6 => windowed(random, n, 2 * many, literals, 6),
        _ => (0..many).map(|_| clause(random, n, usize::from(n))).collect(),
    };
    if !list.is_empty() && random.once_in(4) {
        let again = random.pick(&list);
        list.insert(random.below(list.len() + 1), again);
    }
    if random.once_in(12) {
        list.insert(random.below(list.len() + 1), Valuation { fixed: 0, values: 0 });
    }
    list
}

/// Rooms around the need, at run sizes below it, and one anywhere.
pub fn rooms(random: &mut Random, runs: &Runs) -> Vec<usize> {
    let (need, some) = (runs.need(), random.pick(&runs.sizes));
    let limit = random.pick(&[40, 40, 40, 400, MOST_NODES]);
    let around = [need.wrapping_sub(1), need, need + 1, some, some.wrapping_sub(1), 2 + random.below(limit - 1)];
    let inside: Vec<usize> = around.into_iter().filter(|room| (2..=MOST_NODES).contains(room)).collect();
    if inside.is_empty() {
        vec![MOST_NODES]
    } else {
        inside
    }
}

/// A list of a hundred or more clauses over many marks.
pub fn large_list(random: &mut Random, kind: usize) -> (u16, Vec<Valuation>) {
    const WINDOWS: [(u16, usize, usize, u16); 5] = [(60, 100, 4, 7), (60, 140, 5, 8), (40, 100, 4, 9), (30, 120, 4, 8), (50, 100, 3, 6)];
    match kind % 12 {
        0 => (60, interval(random, 60, 100)),
        1 => (32, interval(random, 32, 200)),
        2 => (30, random_cells(random, 30, 100)),
        3 => (40, boxes(random, 40, 7, 4)),
        4 => (60, boxes(random, 60, 4, 5)),
        5 => (60, parity_chain(60, 3, 2)),
        6 => (30 + random.below(31) as u16, parity(&[3, 7, 9, 11, 13, 19, 23, 29])),
        kind => {
            let (n, many, literals, window) = WINDOWS[kind - 7];
            (n, windowed(random, n, many, literals, window))
        }
    }
}

/// Canonical tables by their truth tables, each made once.
#[derive(Default)]
pub struct Canonical(BTreeMap<(u16, u64), Vec<u32>>);

impl Canonical {
    pub fn of(&mut self, function: Function) -> &Vec<u32> {
        self.0.entry((function.n, function.answers)).or_insert_with(|| function.canonical())
    }

    /// Each opening run by its own truth table.
    pub fn runs(&mut self, builder: Builder, n: u16, clauses: &[Valuation]) -> Runs {
        let run = |many: usize| Function::from_cases(n, |case| holds(builder, &clauses[..many], case));
        let sizes = (0..=clauses.len()).map(|many| self.of(run(many)).len() / 3).collect();
        Runs { sizes, table: Some(self.of(run(clauses.len())).clone()) }
    }
}
