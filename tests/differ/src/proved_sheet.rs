//! The proved library's sheet reader, called with lent outputs that are filled with rubbish and come back whole.
use crate::answer::Outcome;
use crate::proved::Room;

extern "C" {
    fn collartug_read_sheet(
        bytes: *const u8,
        bytes_len: usize,
        clauses: *mut u64,
        clauses_len: usize,
        nodes: *mut u32,
        nodes_len: usize,
        reply: *mut u64,
        reply_len: usize,
    ) -> u64;
}

/// Makes a call; it comes back with the reply, then the clause output and the node output.
pub fn read_sheet(room: Room, bytes: &[u8], clause_words: usize, node_words: usize) -> Outcome {
    room.call_listing(clause_words, node_words, |clauses, nodes, reply| unsafe {
        collartug_read_sheet(bytes.as_ptr(), bytes.len(), clauses.0, clauses.1, nodes.0, nodes.1, reply.0, reply.1)
    })
}
