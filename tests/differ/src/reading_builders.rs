//! The refusals of the builders, read a second time in plain Rust. What a call answers otherwise is found elsewhere.
use crate::answer::{Answer, CLAUSE, LIMIT, NODES, SHORT, VARIABLE};
use crate::building::Build;
use crate::reading::malformed;

const MOST_MARKS: u16 = 60;
const MOST_NODES: usize = 4096;
const MOST_CLAUSES: usize = 1024;
const LEAST_ROOM: usize = 2;
const WORDS_PER_NODE: usize = 3;

/// What a list comes to: the node count of each opening run, from the empty one on, and the canonical table of the whole list.
/// Where a run is over every room, none after it is there, and no table.
#[derive(Clone, Debug, PartialEq, Eq)]
pub struct Runs {
    pub sizes: Vec<usize>,
    pub table: Option<Vec<u32>>,
}

impl Runs {
    /// The least room in which the list is built.
    pub fn need(&self) -> usize {
        self.sizes.iter().copied().fold(LEAST_ROOM, usize::max)
    }

    /// The first opening run that does not fit the room.
    pub fn first_over(&self, room: usize) -> Option<u64> {
        self.sizes.iter().position(|size| *size > room).map(|run| run as u64)
    }
}

fn over_limit(call: &Build) -> bool {
    call.n > MOST_MARKS || call.count > MOST_CLAUSES || !(LEAST_ROOM..=MOST_NODES).contains(&call.space.room)
}

/// Only asked after the limit: the products are small.
fn too_short(call: &Build) -> bool {
    let list = call.list.len() < call.builder.words_per_entry() * call.count;
    list || call.space.out < WORDS_PER_NODE * call.space.room || call.space.work < call.least_work()
}

/// The first entry that is no clause over n marks, or no case of n marks: its index, whatever is wrong with it.
fn bad_entry(call: &Build) -> Option<Answer> {
    let number = if call.builder.takes_cases() { VARIABLE } else { CLAUSE };
    let bad = call.clauses().into_iter().position(|clause| malformed(call.n, clause));
    bad.map(|index| Answer::refused(number, index as u64))
}

/// The refusal that inspection gives, in the order of checking.
pub fn refusal(call: &Build) -> Option<Answer> {
    if over_limit(call) {
        return Some(Answer::refused(LIMIT, 0));
    }
    if too_short(call) {
        return Some(Answer::refused(SHORT, 0));
    }
    bad_entry(call)
}

/// The whole answer; `runs` is asked only of a call that inspection lets through.
pub fn answer(call: &Build, runs: impl FnOnce() -> Runs) -> Answer {
    refusal(call).unwrap_or_else(|| settled(call.space.room, &runs()))
}

/// The first run over room is refused; the buffers are the output and the work.
fn settled(room: usize, runs: &Runs) -> Answer {
    match (runs.first_over(room), &runs.table) {
        (Some(run), _) => Answer::refused(NODES, run),
        (None, Some(table)) => {
            let words = table.iter().map(|word| u64::from(*word)).collect();
            Answer::Given { values: vec![(table.len() / WORDS_PER_NODE) as u64], outs: vec![words, vec![]] }
        }
        (None, None) => panic!("a list whose runs all fit has a table"),
    }
}
