//! The specification's refusals, read a second time in plain Rust. What a call answers otherwise comes from the oracle.
use crate::answer::{Answer, CLAUSE, LIMIT, SHORT, TABLE, VARIABLE};

/// A partial valuation, or a clause: the fixed marks, then their values. Any two words may be given.
#[derive(Clone, Copy, Debug, PartialEq, Eq)]
pub struct Valuation {
    pub fixed: u64,
    pub values: u64,
}

const MOST_MARKS: u16 = 60;
const MOST_NODES: usize = 4096;
const WORDS_PER_NODE: usize = 3;

fn bit(word: u64, mark: u16) -> bool {
    word >> mark & 1 == 1
}

fn yes(truth: bool) -> Answer {
    Answer::given(vec![u64::from(truth)])
}

/// The values, unless one of the refusals holds; they are listed in the order of checking.
fn unless(refusals: &[Option<Answer>], values: impl FnOnce() -> Vec<u64>) -> Answer {
    refusals.iter().flatten().next().cloned().unwrap_or_else(|| Answer::given(values()))
}

fn over_limit(n: u16, count: usize) -> bool {
    n > MOST_MARKS || !(1..=MOST_NODES).contains(&count)
}

/// Only asked after the limit: the product is small.
fn too_short(count: usize, nodes: &[u32]) -> bool {
    nodes.len() < WORDS_PER_NODE * count
}

/// The lowest bit from n up that is set.
fn lowest_bit_outside(n: u16, case: u64) -> Option<u16> {
    (n..64).find(|&mark| bit(case, mark))
}

/// The first node that breaks the rule of ordered tables; the slice holds the count.
pub fn first_unordered(n: u16, count: usize, nodes: &[u32]) -> Option<usize> {
    (0..count).find(|&i| !in_order(u32::from(n), i, nodes))
}

fn in_order(n: u32, i: usize, nodes: &[u32]) -> bool {
    let node = |i: usize| (nodes[3 * i], nodes[3 * i + 1], nodes[3 * i + 2]);
    let (mark, low, high) = node(i);
    match i {
        0 => (mark, low, high) == (n, 0, 0),
        1 => (mark, low, high) == (n, 1, 1),
        _ => {
            let earlier = |link: u32| u64::from(link) < i as u64;
            let greater = |link: u32| node(link as usize).0 > mark;
            mark < n && earlier(low) && earlier(high) && greater(low) && greater(high)
        }
    }
}

/// The refusals of a table entry in the order of checking; none of a later number is looked at once an earlier one holds.
fn table_refusal(n: u16, count: usize, nodes: &[u32], case: u64) -> Option<Answer> {
    if over_limit(n, count) {
        return Some(Answer::refused(LIMIT, 0));
    }
    if too_short(count, nodes) {
        return Some(Answer::refused(SHORT, 0));
    }
    if let Some(mark) = lowest_bit_outside(n, case) {
        return Some(Answer::refused(VARIABLE, u64::from(mark)));
    }
    first_unordered(n, count, nodes).map(|i| Answer::refused(TABLE, i as u64))
}

/// Inspection: a sound table's root is its last node.
pub fn inspect(n: u16, count: usize, nodes: &[u32]) -> Answer {
    let no_case = 0;
    table_refusal(n, count, nodes, no_case).unwrap_or_else(|| Answer::given(vec![count as u64 - 1]))
}

/// Evaluation; `truth` is asked only of a call that is not refused.
pub fn eval_in(n: u16, count: usize, nodes: &[u32], case: u64, truth: impl FnOnce() -> bool) -> Answer {
    table_refusal(n, count, nodes, case).unwrap_or_else(|| yes(truth()))
}

/// What an ordered table says of a case, from the constants up rather than from the root down.
pub fn says(count: usize, nodes: &[u32], case: u64) -> bool {
    let mut truth = vec![false, true];
    for i in 2..count {
        let link = if bit(case, nodes[3 * i] as u16) { nodes[3 * i + 2] } else { nodes[3 * i + 1] };
        truth.push(truth[link as usize]);
    }
    truth[count - 1]
}

/// A clause over n marks is malformed: a bit from n up, or a value bit outside the fixed marks.
pub fn malformed(n: u16, v: Valuation) -> bool {
    let outside = |mark| mark >= n && (bit(v.fixed, mark) || bit(v.values, mark));
    let unfixed = |mark| bit(v.values, mark) && !bit(v.fixed, mark);
    (0..64).any(|mark| outside(mark) || unfixed(mark))
}

fn valuation_refusal(index: u64, v: Valuation) -> Option<Answer> {
    malformed(MOST_MARKS, v).then(|| Answer::refused(CLAUSE, index))
}

fn mark_refusal(id: u16) -> Option<Answer> {
    (id >= MOST_MARKS).then(|| Answer::refused(VARIABLE, u64::from(id)))
}

/// An entry on one valuation.
pub fn on_valuation(v: Valuation, values: impl FnOnce() -> Vec<u64>) -> Answer {
    unless(&[valuation_refusal(0, v)], values)
}

/// An entry on one valuation and a mark.
pub fn on_valuation_and_mark(v: Valuation, id: u16, values: impl FnOnce() -> Vec<u64>) -> Answer {
    unless(&[mark_refusal(id), valuation_refusal(0, v)], values)
}

/// An entry on two valuations.
pub fn on_two_valuations(v: Valuation, other: Valuation, values: impl FnOnce() -> Vec<u64>) -> Answer {
    unless(&[valuation_refusal(0, v), valuation_refusal(1, other)], values)
}

/// The entry on a list of values: each word is twice a mark, plus its value.
pub fn on_values(words: &[u32], values: impl FnOnce() -> Vec<u64>) -> Answer {
    let bad = words.iter().position(|word| word / 2 >= u32::from(MOST_MARKS));
    unless(&[bad.map(|index| Answer::refused(VARIABLE, index as u64))], values)
}
