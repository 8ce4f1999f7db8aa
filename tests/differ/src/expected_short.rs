//! What the short list comes to by the oracle on its own tables, and its rule followed a second time over functions.
use crate::convert::{of_valuation, to_variable};
use crate::reading::Valuation;
use crate::reading_short::Followed;
use biodivine_lib_bdd::Bdd;
use std::collections::HashMap;

/// The Rust's own list. It compares tables node by node, so the table must be one that the Rust numbered.
pub fn listed(bdd: &Bdd) -> Vec<Valuation> {
    bdd.to_optimized_dnf().iter().map(of_valuation).collect()
}

/// The specification's rule: the tables are the oracle's, equal where they mean the same. Each function is solved once.
pub struct Rule {
    most: u64,
    solved: HashMap<Vec<u32>, Followed>,
}

impl Rule {
    /// Lists of more clauses than this are counted and not written out.
    pub fn new(most: u64) -> Rule {
        Rule { most, solved: HashMap::new() }
    }

    /// The rule for an input: its list trimmed at the end.
    pub fn follow(&mut self, f: &Bdd) -> Followed {
        let mut followed = self.solve(f);
        followed.list.iter_mut().for_each(|list| trim(f, list));
        followed
    }

    /// Functions that are solved are forgotten.
    pub fn forget(&mut self) {
        self.solved.clear();
    }

    fn solve(&mut self, f: &Bdd) -> Followed {
        if f.is_false() {
            return Followed { largest: f.size(), clauses: 0, list: Some(vec![]) };
        }
        if f.is_true() {
            return Followed { largest: f.size(), clauses: 1, list: Some(vec![Valuation { fixed: 0, values: 0 }]) };
        }
        let key = f.renumbered();
        if let Some(solved) = self.solved.get(&key) {
            return solved.clone();
        }
        let solved = self.split(f);
        self.solved.insert(key, solved.clone());
        solved
    }

    /// The core first, then what remains with one mark true, then with it false.
    fn split(&mut self, f: &Bdd) -> Followed {
        let mut largest = f.size();
        let mut seen = |table: Bdd| {
            largest = largest.max(table.size());
            table
        };
        let core = core(f, &mut seen);
        let g = core.as_ref().map_or(f.clone(), |core| remainder(f, core, &mut seen));
        let (mark, halves) = halves(f, &g, &mut seen);
        let mut whole = Followed { largest, clauses: 0, list: Some(vec![]) };
        if let Some(core) = core {
            self.append(&mut whole, &core, Valuation { fixed: 0, values: 0 });
        }
        for (half, values) in halves.iter().zip([1 << mark, 0]) {
            self.append(&mut whole, half, Valuation { fixed: 1 << mark, values });
        }
        whole
    }

    /// The part's list, each clause with the literal that led to it.
    fn append(&mut self, whole: &mut Followed, part: &Bdd, literal: Valuation) {
        let part = self.solve(part);
        whole.largest = whole.largest.max(part.largest);
        whole.clauses = whole.clauses.saturating_add(part.clauses);
        whole.list = match (whole.list.take(), part.list) {
            (Some(mut list), Some(more)) if whole.clauses <= self.most => {
                let with = |v: Valuation| Valuation { fixed: v.fixed | literal.fixed, values: v.values | literal.values };
                list.extend(more.into_iter().map(with));
                Some(list)
            }
            _ => None,
        };
    }
}

/// The marks that a reduced table depends on, rising.
fn support(f: &Bdd) -> Vec<u16> {
    let mut marks: Vec<u16> = f.support_set().iter().map(|mark| mark.to_index() as u16).collect();
    marks.sort_unstable();
    marks
}

/// The for-all with most cases, if it has any; of equals the first.
fn core(f: &Bdd, seen: &mut impl FnMut(Bdd) -> Bdd) -> Option<Bdd> {
    let mut best = None;
    for mark in support(f) {
        let core = seen(f.var_for_all(to_variable(mark)));
        let cases = core.exact_cardinality();
        let is_better = best.as_ref().map_or(!core.is_false(), |(_, most)| cases > *most);
        if is_better {
            best = Some((core, cases));
        }
    }
    best.map(|(core, _)| core)
}

/// What the core leaves of f, without the core's marks that can drop out of it, one after the other.
fn remainder(f: &Bdd, core: &Bdd, seen: &mut impl FnMut(Bdd) -> Bdd) -> Bdd {
    let mut remainder = seen(f.and_not(core));
    for mark in support(core) {
        let wider = seen(remainder.var_exists(to_variable(mark)));
        if wider.or(core).xor(f).is_false() {
            remainder = wider;
        }
    }
    remainder
}

/// The mark of f whose two restrictions of g have the fewest nodes, of equals the first; the restrictions, true before false.
fn halves(f: &Bdd, g: &Bdd, seen: &mut impl FnMut(Bdd) -> Bdd) -> (u16, [Bdd; 2]) {
    let restricted = |mark: u16| [true, false].map(|value| g.var_restrict(to_variable(mark), value));
    let mut tried = support(f).into_iter().map(|mark| (mark, restricted(mark).map(&mut *seen)));
    let first = tried.next().expect("f is no constant");
    let total = |[one, other]: &[Bdd; 2]| one.size() + other.size();
    tried.fold(first, |best, next| if total(&next.1) < total(&best.1) { next } else { best })
}

/// A literal against the way in which the function is monotone is left out.
fn trim(f: &Bdd, list: &mut [Valuation]) {
    for mark in support(f) {
        let [with, without] = [true, false].map(|value| f.var_restrict(to_variable(mark), value));
        let (positive, negative) = (without.and_not(&with).is_false(), with.and_not(&without).is_false());
        let bit = 1u64 << mark;
        for clause in list.iter_mut().filter(|clause| clause.fixed & bit != 0) {
            let is_one = clause.values & bit != 0;
            if positive && !is_one || negative && is_one {
                clause.fixed &= !bit;
                clause.values &= !bit;
            }
        }
    }
}
