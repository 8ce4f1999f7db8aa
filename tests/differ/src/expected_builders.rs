//! What lists come to by the oracle: its own splitting builder for the whole list, its operators for the opening runs.
use crate::building::{Build, Builder};
use crate::convert::{to_case, to_valuation};
use crate::corpus::MOST_NODES;
use crate::reading::Valuation;
use crate::reading_builders::Runs;
use biodivine_lib_bdd::{Bdd, BddVariableSet};

/// The whole list by the Rust's builder.
pub fn built(builder: Builder, n: u16, clauses: &[Valuation]) -> Bdd {
    let set = BddVariableSet::new_anonymous(n);
    let partial = || clauses.iter().copied().map(to_valuation).collect::<Vec<_>>();
    let cases = || clauses.iter().map(|clause| to_case(n, clause.values)).collect::<Vec<_>>();
    match builder {
        Builder::Dnf => set.mk_dnf(&partial()),
        Builder::Cnf => set.mk_cnf(&partial()),
        Builder::DnfValuation => set.mk_dnf_valuation(&cases()),
        Builder::CnfValuation => set.mk_cnf_valuation(&cases()),
    }
}

/// The opening runs one clause after another, up to the first that is over every room.
pub fn runs(builder: Builder, n: u16, clauses: &[Valuation]) -> Runs {
    runs_within(MOST_NODES, builder, n, clauses)
}

/// The opening runs up to the first of over `most` nodes; both ways must come to the same table.
pub fn runs_within(most: usize, builder: Builder, n: u16, clauses: &[Valuation]) -> Runs {
    let set = BddVariableSet::new_anonymous(n);
    let mut so_far = if builder.is_dnf() { set.mk_false() } else { set.mk_true() };
    let mut sizes = vec![so_far.size()];
    for clause in clauses {
        let clause = to_valuation(*clause);
        so_far = match builder.is_dnf() {
            true => so_far.or(&set.mk_conjunctive_clause(&clause)),
            false => so_far.and(&set.mk_disjunctive_clause(&clause)),
        };
        sizes.push(so_far.size());
        if so_far.size() > most {
            return Runs { sizes, table: None };
        }
    }
    let table = built(builder, n, clauses).renumbered();
    assert_eq!(table, so_far.renumbered(), "the oracle's builder and its operators differ: {builder:?} {n} {clauses:x?}");
    Runs { sizes, table: Some(table) }
}

/// The runs of a call that inspection lets through.
pub fn runs_for(call: &Build) -> Runs {
    runs(call.builder, call.n, &call.clauses())
}
