//! The whole answer of each entry: the specification's refusals first, then what the Rust answers, in the specification's numbers.
use crate::answer::Answer;
use crate::convert::{of_pairs, of_valuation, to_pairs, to_valuation, to_variable};
use crate::reading::{on_two_valuations, on_valuation, on_valuation_and_mark, on_values, Valuation};
use biodivine_lib_bdd::BddPartialValuation;

fn two_words(v: &BddPartialValuation) -> Vec<u64> {
    let Valuation { fixed, values } = of_valuation(v);
    vec![fixed, values]
}

pub fn empty() -> Answer {
    Answer::given(two_words(&BddPartialValuation::empty()))
}

pub fn is_empty(v: Valuation) -> Answer {
    on_valuation(v, || vec![u64::from(to_valuation(v).is_empty())])
}

pub fn cardinality(v: Valuation) -> Answer {
    on_valuation(v, || vec![u64::from(to_valuation(v).cardinality())])
}

pub fn last_fixed_variable(v: Valuation) -> Answer {
    on_valuation(v, || match to_valuation(v).last_fixed_variable() {
        Some(mark) => vec![1, mark.to_index() as u64],
        None => vec![0],
    })
}

/// The count, then the words; the zeros after them are the reply's.
pub fn to_values(v: Valuation) -> Answer {
    on_valuation(v, || {
        let words = of_pairs(&to_valuation(v).to_values());
        [&[words.len() as u64], &words[..]].concat()
    })
}

pub fn from_values(words: &[u32]) -> Answer {
    on_values(words, || two_words(&BddPartialValuation::from_values(&to_pairs(words))))
}

pub fn get_value(v: Valuation, id: u16) -> Answer {
    on_valuation_and_mark(v, id, || match to_valuation(v).get_value(to_variable(id)) {
        Some(value) => vec![1, u64::from(value)],
        None => vec![0],
    })
}

pub fn has_value(v: Valuation, id: u16) -> Answer {
    on_valuation_and_mark(v, id, || vec![u64::from(to_valuation(v).has_value(to_variable(id)))])
}

/// Any number but 0 stands for true.
pub fn set_value(v: Valuation, id: u16, value: u64) -> Answer {
    on_valuation_and_mark(v, id, || {
        let mut made = to_valuation(v);
        made.set_value(to_variable(id), value != 0);
        two_words(&made)
    })
}

pub fn unset_value(v: Valuation, id: u16) -> Answer {
    on_valuation_and_mark(v, id, || {
        let mut made = to_valuation(v);
        made.unset_value(to_variable(id));
        two_words(&made)
    })
}

pub fn extends(v: Valuation, other: Valuation) -> Answer {
    on_two_valuations(v, other, || vec![u64::from(to_valuation(v).extends(&to_valuation(other)))])
}

pub fn eq(v: Valuation, other: Valuation) -> Answer {
    on_two_valuations(v, other, || vec![u64::from(to_valuation(v) == to_valuation(other))])
}
