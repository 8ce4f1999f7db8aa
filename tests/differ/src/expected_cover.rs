//! What a list and a table come to side by side by the oracle.
use crate::building::Builder;
use crate::convert::to_variable;
use crate::covering::Cover;
use crate::expected_builders::built;
use crate::expected_operators::reduced;
use biodivine_lib_bdd::Bdd;

/// The first case of a table in the order that compares mark 0 first, 0 before 1: mark after mark is set to 0 where a case is left.
fn first_case(bdd: &Bdd) -> Option<u64> {
    if bdd.is_false() {
        return None;
    }
    let (mut rest, mut case) = (bdd.clone(), 0);
    for mark in 0..bdd.num_vars() {
        let low = rest.var_restrict(to_variable(mark), false);
        let is_set = low.is_false();
        case |= u64::from(is_set) << mark;
        rest = if is_set { rest.var_restrict(to_variable(mark), true) } else { low };
    }
    Some(case)
}

/// Mark 0 is the highest digit.
fn digits(case: u64) -> u64 {
    case.reverse_bits()
}

/// The first case on which two tables differ: of those that one says yes to, and of those that the other does.
pub fn first_difference(one: &Bdd, other: &Bdd) -> Option<u64> {
    let either = [one.and_not(other), other.and_not(one)];
    either.iter().filter_map(first_case).min_by_key(|case| digits(*case))
}

/// The same for the words of a call that inspection lets through.
pub fn first_difference_for(call: &Cover) -> Option<u64> {
    first_difference(&built(Builder::Dnf, call.n, &call.build().clauses()), &reduced(call.table))
}
