//! The oracle's values in the specification's words, and back.
use crate::reading::Valuation;
use biodivine_lib_bdd::{Bdd, BddPartialValuation, BddPointer, BddValuation, BddVariable};

/// A mark in the Rust's type.
pub fn to_variable(mark: u16) -> BddVariable {
    BddVariable::from_index(usize::from(mark))
}

/// The table with the node numbers that the Rust gave it.
pub fn as_made(bdd: &Bdd) -> Vec<u32> {
    let links = |p: BddPointer| [bdd.low_link_of(p), bdd.high_link_of(p)].map(|link| link.to_index() as u32);
    let node = |p: BddPointer| [bdd.var_of(p).to_index() as u32, links(p)[0], links(p)[1]];
    (0..bdd.size()).flat_map(|i| node(BddPointer::from_index(i))).collect()
}

/// A case over n marks; its other bits are left out.
pub fn to_case(n: u16, case: u64) -> BddValuation {
    BddValuation::new((0..n).map(|mark| case >> mark & 1 == 1).collect())
}

/// A list of values: each word is twice a mark, plus its value. A mark that does not fit the Rust's is a mistake of the caller's.
pub fn to_pairs(words: &[u32]) -> Vec<(BddVariable, bool)> {
    words.iter().map(|word| (to_variable(u16::try_from(word / 2).unwrap()), word % 2 == 1)).collect()
}

/// The words of a list of values.
pub fn of_pairs(pairs: &[(BddVariable, bool)]) -> Vec<u64> {
    pairs.iter().map(|(mark, value)| 2 * mark.to_index() as u64 + u64::from(*value)).collect()
}

/// A well-formed valuation of at most 64 marks.
pub fn to_valuation(v: Valuation) -> BddPartialValuation {
    let mut made = BddPartialValuation::empty();
    for mark in (0..64).filter(|mark| v.fixed >> mark & 1 == 1) {
        made.set_value(to_variable(mark), v.values >> mark & 1 == 1);
    }
    made
}

/// The words of a valuation that fixes no mark from 64 up.
pub fn of_valuation(v: &BddPartialValuation) -> Valuation {
    let mut made = Valuation { fixed: 0, values: 0 };
    for (mark, value) in v.to_values() {
        made.fixed |= 1 << mark.to_index();
        made.values |= u64::from(value) << mark.to_index();
    }
    made
}
