//! The refusals of the operators, read a second time in plain Rust. What a call answers otherwise is found elsewhere.
use crate::answer::{Answer, LIMIT, NODES, SHORT, TABLE, VARIABLE};
use crate::operation::Operation;
use crate::reading::first_unordered;

const MOST_MARKS: u16 = 60;
const MOST_NODES: usize = 4096;
const LEAST_ROOM: usize = 2;
const WORDS_PER_NODE: usize = 3;

/// What an operator comes to where nothing is refused: the canonical table's words, or a number.
#[derive(Clone, Debug, PartialEq, Eq)]
pub enum Found {
    Table(Vec<u32>),
    Number(u64),
}

impl Found {
    /// The nodes of the table; a number has none.
    pub fn size(&self) -> usize {
        match self {
            Found::Table(words) => words.len() / WORDS_PER_NODE,
            Found::Number(_) => 0,
        }
    }
}

fn over_limit(call: &Operation) -> bool {
    let count_outside = call.tables().any(|table| !(1..=MOST_NODES).contains(&table.count));
    let room_outside = call.operator.makes_table() && !(LEAST_ROOM..=MOST_NODES).contains(&call.space.room);
    call.n > MOST_MARKS || count_outside || room_outside
}

/// Only asked after the limit: the products are small.
fn too_short(call: &Operation) -> bool {
    let input = call.tables().any(|table| table.nodes.len() < WORDS_PER_NODE * table.count);
    let output = call.operator.makes_table() && call.space.out < WORDS_PER_NODE * call.space.room;
    input || output || call.space.work < call.least_work()
}

fn mark_outside(call: &Operation) -> bool {
    call.operator.takes_mark() && call.mark >= call.n
}

/// The first bad node of the left table; if it has none, of the right one.
fn bad_node(call: &Operation) -> Option<usize> {
    call.tables().find_map(|table| first_unordered(call.n, table.count, table.nodes))
}

/// The refusal that inspection gives, in the order of checking.
pub fn refusal(call: &Operation) -> Option<Answer> {
    if over_limit(call) {
        return Some(Answer::refused(LIMIT, 0));
    }
    if too_short(call) {
        return Some(Answer::refused(SHORT, 0));
    }
    if mark_outside(call) {
        return Some(Answer::refused(VARIABLE, u64::from(call.mark)));
    }
    bad_node(call).map(|node| Answer::refused(TABLE, node as u64))
}

/// The whole answer; `found` is asked only of a call that inspection lets through.
pub fn answer(call: &Operation, found: impl FnOnce() -> Found) -> Answer {
    refusal(call).unwrap_or_else(|| settled(call, &found()))
}

/// A table over room is refused; the buffers are the output, where there is one, and the work.
fn settled(call: &Operation, found: &Found) -> Answer {
    match found {
        Found::Table(_) if found.size() > call.space.room => Answer::refused(NODES, 0),
        Found::Table(words) => {
            let words = words.iter().map(|word| u64::from(*word)).collect();
            Answer::Given { values: vec![found.size() as u64], outs: vec![words, vec![]] }
        }
        Found::Number(number) => Answer::Given { values: vec![*number], outs: vec![vec![]] },
    }
}
