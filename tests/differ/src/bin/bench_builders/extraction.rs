//! The extractors on the tables of the corpora.
use crate::corpora::Case;
use biodivine_lib_bdd::Bdd;
use differ::corpus::MOST_NODES;
use differ::expected_builders::built;
use differ::expected_extractors::listed;
use differ::extracting::{Extraction, Extractor};
use differ::proved_extractors::call_into;
use differ::reading_extractors::paths;
use differ::timing::{report, time, Timed};
use std::collections::BTreeSet;
use std::hint::black_box;

/// Each side is timed so many times; the middle time counts.
const TIMES: usize = 11;

/// Longer lists are not written out.
const MOST_PATHS: u64 = 100_000;

/// One table: the list first, then the times. The output has room for 1,024 clauses, or for as many as there are.
fn time_table(extractor: Extractor, name: &str, n: u16, bdd: &Bdd) -> Timed {
    let nodes = bdd.renumbered();
    let many = paths(extractor, bdd.size(), &nodes) as usize;
    let call = Extraction::whole(extractor, n, &nodes, 2 * many.max(1024), 0);
    let (mut out, mut work, mut reply) = (vec![0; call.out], vec![0; call.work], vec![0; 64]);
    let mut ours = || time(|| assert_eq!(call_into(&call, &mut out, &mut work, &mut reply), 1));
    ours();
    let oracles = || match extractor {
        Extractor::Dnf => drop(black_box(bdd.to_dnf())),
        Extractor::Cnf => drop(black_box(bdd.to_cnf())),
    };
    let input = format!("{} of {name}, {many} clauses", extractor.name());
    let timed = Timed::new(input, TIMES, ours, || time(oracles));
    let wanted: Vec<u64> = listed(extractor, bdd).iter().flat_map(|clause| [clause.fixed, clause.values]).collect();
    assert!(reply[..3] == [0, 0, many as u64] && out[..2 * many] == wanted[..], "{name} differs from the oracle");
    timed
}

/// Each table once, though several lists of the corpus come to it.
pub fn time_corpus(cases: &[Case]) {
    let (mut seen, mut tables) = (BTreeSet::new(), vec![]);
    for case in cases {
        let bdd = built(case.builder, case.n, &case.clauses);
        if bdd.size() <= MOST_NODES && seen.insert(bdd.renumbered()) {
            tables.push((case, bdd));
        }
    }
    for extractor in Extractor::ALL {
        let few = |bdd: &Bdd| paths(extractor, bdd.size(), &bdd.renumbered()) <= MOST_PATHS;
        let timed: Vec<Timed> = tables
            .iter()
            .filter(|(_, bdd)| few(bdd))
            .map(|(case, bdd)| time_table(extractor, &format!("{} nodes, {}", bdd.size(), case.name), case.n, bdd))
            .collect();
        if !timed.is_empty() {
            report(&format!("  {}", extractor.name()), &timed);
        }
    }
}
