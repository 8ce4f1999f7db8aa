//! The proved library's builders, called with lent output and work that are filled with rubbish and come back whole.
use crate::answer::Outcome;
use crate::building::{Build, Builder};
use crate::proved::{entries, Lending, Room};

entries!(OnList(
    n: u16,
    count: usize,
    list: *const u64,
    list_len: usize,
    room: usize,
    out: *mut u32,
    out_len: usize,
    work: *mut u32,
    work_len: usize,
    reply: *mut u64,
    reply_len: usize,
): collartug_mk_dnf, collartug_mk_cnf, collartug_mk_dnf_valuation, collartug_mk_cnf_valuation);

fn entry(builder: Builder) -> OnList {
    match builder {
        Builder::Dnf => collartug_mk_dnf,
        Builder::Cnf => collartug_mk_cnf,
        Builder::DnfValuation => collartug_mk_dnf_valuation,
        Builder::CnfValuation => collartug_mk_cnf_valuation,
    }
}

fn raw(call: &Build, (out, work, reply): Lending) -> u64 {
    let Build { builder, n, count, list, space } = *call;
    unsafe { entry(builder)(n, count, list.as_ptr(), list.len(), space.room, out.0, out.1, work.0, work.1, reply.0, reply.1) }
}

/// Makes a call; it comes back with the reply, then the output and the work.
pub fn call(reply: Room, call: &Build) -> Outcome {
    reply.call_making(call.space.out, call.space.work, |lending| raw(call, lending))
}

/// Makes a call on buffers that the caller keeps: for measuring. All of each is lent, whatever the call's space says.
pub fn call_into(call: &Build, out: &mut [u32], work: &mut [u32], reply: &mut [u64]) -> u64 {
    raw(call, ((out.as_mut_ptr(), out.len()), (work.as_mut_ptr(), work.len()), (reply.as_mut_ptr(), reply.len())))
}
