//! The walk's start read a second time in plain Rust: a table's refusals, and the lowest node that a reduced table would not have.
use crate::answer::{Answer, REDUCED};
use crate::reading::inspect;
use std::collections::BTreeSet;

/// The nodes that a path from this one meets.
fn visit(nodes: &[u32], node: usize, met: &mut BTreeSet<usize>) {
    if met.insert(node) && node > 1 {
        visit(nodes, nodes[3 * node + 1] as usize, met);
        visit(nodes, nodes[3 * node + 2] as usize, met);
    }
}

/// The lowest node from 2 up with low = high, with an earlier node's triple, or on no path from the root; of an ordered table.
pub fn first_unreduced(count: usize, nodes: &[u32]) -> Option<usize> {
    let (mut met, mut seen) = (BTreeSet::new(), BTreeSet::new());
    visit(nodes, count - 1, &mut met);
    (2..count).find(|i| {
        let triple = &nodes[3 * i..3 * i + 3];
        triple[1] == triple[2] || !seen.insert(triple) || !met.contains(i)
    })
}

/// The start's check: inspection, then REDUCED.
pub fn walk_check(n: u16, count: usize, nodes: &[u32]) -> Answer {
    match inspect(n, count, nodes) {
        Answer::Refused { number, place } => Answer::refused(number, place),
        sound => first_unreduced(count, nodes).map_or(sound, |node| Answer::refused(REDUCED, node as u64)),
    }
}
