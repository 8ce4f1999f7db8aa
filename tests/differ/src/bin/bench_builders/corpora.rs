//! The lists that are timed: full cells, sparse rules, parity chains; and lists made to be slow.
use differ::building::Builder;
use differ::lists::{boxes, interval, parity, parity_chain, random_cells, rules, shuffle};
use differ::random::Random;
use differ::reading::Valuation;

/// A list for a builder.
pub struct Case {
    pub name: String,
    pub n: u16,
    pub builder: Builder,
    pub clauses: Vec<Valuation>,
}

/// The three corpora.
pub fn all() -> [(&'static str, Vec<Case>); 3] {
    [("full cells", full_cells()), ("sparse rules", sparse_rules()), ("parity chains", parity_chains())]
}

const MOST_CLAUSES: usize = 1024;

/// The list as it is and shuffled, for each of the builders.
fn both_orders(random: &mut Random, name: &str, n: u16, builders: &[Builder], mut clauses: Vec<Valuation>) -> Vec<Case> {
    clauses.truncate(MOST_CLAUSES);
    let mut cases = vec![];
    for order in ["in order", "shuffled"] {
        for builder in builders {
            let name = format!("{} of {} {name} over {n} marks, {order}", builder.name(), clauses.len());
            cases.push(Case { name, n, builder: *builder, clauses: clauses.clone() });
        }
        shuffle(random, &mut clauses);
    }
    cases
}

const CELLS: [Builder; 2] = [Builder::Dnf, Builder::DnfValuation];

fn full_cells() -> Vec<Case> {
    let random = &mut Random::new(51);
    let mut cases = vec![];
    for (n, many) in [(16, 64), (16, 1024), (20, 300), (24, 200), (32, 120), (60, 70)] {
        let cells = random_cells(random, n, many);
        cases.extend(both_orders(random, "random cells", n, &CELLS, cells));
    }
    for n in [16, 32, 60] {
        let cells = interval(random, n, 1024);
        cases.extend(both_orders(random, "neighbouring cells", n, &CELLS, cells));
    }
    for n in [20, 40, 60] {
        let cells = boxes(random, n, 8, 7);
        cases.extend(both_orders(random, "cells in boxes", n, &CELLS, cells));
    }
    cases
}

fn sparse_rules() -> Vec<Case> {
    const DNF: [(u16, usize, u32, u16); 8] = [
        (16, 40, 3, 10),
        (16, 200, 6, 14),
        (20, 30, 3, 20),
        (30, 200, 4, 8),
        (40, 60, 3, 10),
        (60, 60, 3, 8),
        (60, 300, 4, 7),
        (60, 1024, 5, 8),
    ];
    const CNF: [(u16, usize, u32, u16); 2] = [(60, 100, 3, 8), (60, 400, 5, 9)];
    let random = &mut Random::new(52);
    let mut cases = vec![];
    let lists = DNF.map(|list| (Builder::Dnf, list)).into_iter().chain(CNF.map(|list| (Builder::Cnf, list)));
    for (builder, (n, many, literals, window)) in lists {
        let rules = rules(random, n, many, literals, window);
        cases.extend(both_orders(random, &format!("rules of {literals} marks within {window}"), n, &[builder], rules));
    }
    cases
}

fn parity_chains() -> Vec<Case> {
    let random = &mut Random::new(53);
    let mut cases = vec![];
    for (n, step) in [(16, 1), (60, 5)] {
        let marks: Vec<u16> = (0..11).map(|k| k * step).collect();
        cases.extend(both_orders(random, "clauses of one parity", n, &[Builder::Dnf, Builder::Cnf], parity(&marks)));
    }
    for (width, step) in [(3, 1), (8, 7), (5, 4), (6, 6)] {
        let chain = parity_chain(60, width, step);
        cases.extend(both_orders(random, &format!("clauses of parities of {width} every {step}"), 60, &[Builder::Cnf], chain));
    }
    cases
}
