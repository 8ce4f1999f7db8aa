//! The short list's refusals, read a second time in plain Rust. What its rule comes to is found elsewhere.
use crate::answer::{Answer, CLAUSES, LIMIT, NODES, SHORT, TABLE};
use crate::reading::{first_unordered, Valuation};
use crate::shortening::Shortening;

const MOST_MARKS: u16 = 60;
const MOST_NODES: usize = 4096;
const LEAST_ROOM: usize = 2;

/// What the rule comes to with unlimited room and an unlimited list.
#[derive(Clone, Debug, PartialEq, Eq)]
pub struct Followed {
    /// The nodes of the largest table that the rule calls for.
    pub largest: usize,
    pub clauses: u64,
    /// The clauses in order; none where there are too many to write out.
    pub list: Option<Vec<Valuation>>,
}

/// The refusal that inspection gives, in the order of checking; a clause output is never too short for it.
pub fn refusal(call: &Shortening) -> Option<Answer> {
    let count_outside = !(1..=MOST_NODES).contains(&call.table.count);
    let room_outside = !(LEAST_ROOM..=MOST_NODES).contains(&call.room);
    if call.n > MOST_MARKS || count_outside || room_outside {
        return Some(Answer::refused(LIMIT, 0));
    }
    if call.table.nodes.len() < 3 * call.table.count || call.work < call.least_work() {
        return Some(Answer::refused(SHORT, 0));
    }
    first_unordered(call.n, call.table.count, call.table.nodes).map(|node| Answer::refused(TABLE, node as u64))
}

/// The whole answer; the rule is asked only for a call that inspection lets through.
pub fn answer(call: &Shortening, follow: impl FnOnce() -> Followed) -> Answer {
    refusal(call).unwrap_or_else(|| settled(call, &follow()))
}

/// A table over room outranks a clause over the output.
fn settled(call: &Shortening, followed: &Followed) -> Answer {
    if followed.largest > call.room {
        return Answer::refused(NODES, 0);
    }
    if followed.clauses > call.out as u64 / 2 {
        return Answer::refused(CLAUSES, 0);
    }
    let list = followed.list.as_ref().expect("a list that fits an output is written out");
    let words: Vec<u64> = list.iter().flat_map(|clause| [clause.fixed, clause.values]).collect();
    Answer::Given { values: vec![followed.clauses], outs: vec![words, vec![]] }
}
