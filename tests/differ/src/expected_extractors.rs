//! What the extractors come to by the oracle, on its own tables.
use crate::convert::of_valuation;
use crate::extracting::Extractor;
use crate::reading::Valuation;
use biodivine_lib_bdd::Bdd;

pub fn listed(extractor: Extractor, bdd: &Bdd) -> Vec<Valuation> {
    let list = match extractor {
        Extractor::Dnf => bdd.to_dnf(),
        Extractor::Cnf => bdd.to_cnf(),
    };
    list.iter().map(of_valuation).collect()
}
