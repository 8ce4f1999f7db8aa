//! The proved library's cover check, called with lent work that is filled with rubbish and comes back whole.
use crate::answer::Outcome;
use crate::covering::Cover;
use crate::proved::Room;

extern "C" {
    fn collartug_check_cover(
        n: u16,
        count: usize,
        nodes: *const u32,
        nodes_len: usize,
        clause_count: usize,
        clauses: *const u64,
        clauses_len: usize,
        room: usize,
        work: *mut u32,
        work_len: usize,
        reply: *mut u64,
        reply_len: usize,
    ) -> u64;
}

/// Makes a call; it comes back with the reply and the work.
pub fn call(reply: Room, call: &Cover) -> Outcome {
    let Cover { n, table, clause_count, clauses, room, work } = *call;
    let (nodes, nodes_len) = (table.nodes.as_ptr(), table.nodes.len());
    let (list, list_len) = (clauses.as_ptr(), clauses.len());
    reply.call_working(work, |work, reply| unsafe {
        collartug_check_cover(n, table.count, nodes, nodes_len, clause_count, list, list_len, room, work.0, work.1, reply.0, reply.1)
    })
}
