//! The proved library's short list, called with lent output and work that are filled with rubbish and come back whole.
use crate::answer::Outcome;
use crate::proved::{Room, Writable};
use crate::shortening::Shortening;

extern "C" {
    fn collartug_to_optimized_dnf(
        n: u16,
        count: usize,
        nodes: *const u32,
        nodes_len: usize,
        room: usize,
        out: *mut u64,
        out_len: usize,
        work: *mut u32,
        work_len: usize,
        reply: *mut u64,
        reply_len: usize,
    ) -> u64;
}

fn raw(call: &Shortening, out: Writable<u64>, work: Writable<u32>, reply: Writable<u64>) -> u64 {
    let (t, nodes) = (call.table, call.table.nodes);
    unsafe {
        collartug_to_optimized_dnf(call.n, t.count, nodes.as_ptr(), nodes.len(), call.room, out.0, out.1, work.0, work.1, reply.0, reply.1)
    }
}

/// Makes a call; it comes back with the reply, then the output and the work.
pub fn call(reply: Room, call: &Shortening) -> Outcome {
    reply.call_listing(call.out, call.work, |out, work, reply| raw(call, out, work, reply))
}

/// Makes a call on buffers that the caller keeps: for measuring. All of each is lent, whatever the call says.
pub fn call_into(call: &Shortening, out: &mut [u64], work: &mut [u32], reply: &mut [u64]) -> u64 {
    raw(call, (out.as_mut_ptr(), out.len()), (work.as_mut_ptr(), work.len()), (reply.as_mut_ptr(), reply.len()))
}
