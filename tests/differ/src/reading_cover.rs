//! The refusals of the cover check, read a second time in plain Rust. What a call answers otherwise is found elsewhere.
use crate::answer::{Answer, CLAUSE, LIMIT, NODES, SHORT, TABLE};
use crate::covering::Cover;
use crate::reading::{first_unordered, malformed};
use crate::reading_builders::Runs;

const MOST_MARKS: u16 = 60;
const MOST_NODES: usize = 4096;
const MOST_CLAUSES: usize = 1024;
const LEAST_ROOM: usize = 2;

fn over_limit(call: &Cover) -> bool {
    let count = !(1..=MOST_NODES).contains(&call.table.count);
    call.n > MOST_MARKS || count || call.clause_count > MOST_CLAUSES || !(LEAST_ROOM..=MOST_NODES).contains(&call.room)
}

/// Only asked after the limit: the products are small.
fn too_short(call: &Cover) -> bool {
    let table = call.table.nodes.len() < 3 * call.table.count;
    table || call.clauses.len() < 2 * call.clause_count || call.work < call.least_work()
}

/// The refusal that inspection gives, in the order of checking.
pub fn refusal(call: &Cover) -> Option<Answer> {
    if over_limit(call) {
        return Some(Answer::refused(LIMIT, 0));
    }
    if too_short(call) {
        return Some(Answer::refused(SHORT, 0));
    }
    if let Some(index) = call.build().clauses().into_iter().position(|clause| malformed(call.n, clause)) {
        return Some(Answer::refused(CLAUSE, index as u64));
    }
    first_unordered(call.n, call.table.count, call.table.nodes).map(|node| Answer::refused(TABLE, node as u64))
}

/// The whole answer. The list's runs and the first differing case are asked only of a call that inspection lets through,
/// the case only where every run fits the room.
pub fn answer(call: &Cover, runs: impl FnOnce() -> Runs, first_difference: impl FnOnce() -> Option<u64>) -> Answer {
    if let Some(refused) = refusal(call) {
        return refused;
    }
    if let Some(run) = runs().first_over(call.room) {
        return Answer::refused(NODES, run);
    }
    let values = first_difference().map_or(vec![0], |case| vec![1, case]);
    Answer::Given { values, outs: vec![vec![]] }
}
