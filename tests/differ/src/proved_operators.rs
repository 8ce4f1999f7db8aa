//! The proved library's operators, called with lent output and work that are filled with rubbish and come back whole.
use crate::answer::Outcome;
use crate::operation::{Operation, Operator};
use crate::proved::{entries, Lending, Room};

entries!(Negation(
    n: u16,
    count: usize,
    nodes: *const u32,
    nodes_len: usize,
    room: usize,
    out: *mut u32,
    out_len: usize,
    work: *mut u32,
    work_len: usize,
    reply: *mut u64,
    reply_len: usize,
): collartug_not);
entries!(OnTwo(
    n: u16,
    left_count: usize,
    left: *const u32,
    left_len: usize,
    right_count: usize,
    right: *const u32,
    right_len: usize,
    room: usize,
    out: *mut u32,
    out_len: usize,
    work: *mut u32,
    work_len: usize,
    reply: *mut u64,
    reply_len: usize,
): collartug_and, collartug_or, collartug_and_not);
entries!(OnMark(
    n: u16,
    count: usize,
    nodes: *const u32,
    nodes_len: usize,
    variable: u16,
    room: usize,
    out: *mut u32,
    out_len: usize,
    work: *mut u32,
    work_len: usize,
    reply: *mut u64,
    reply_len: usize,
): collartug_var_for_all, collartug_var_exists);
entries!(Restriction(
    n: u16,
    count: usize,
    nodes: *const u32,
    nodes_len: usize,
    variable: u16,
    value: u64,
    room: usize,
    out: *mut u32,
    out_len: usize,
    work: *mut u32,
    work_len: usize,
    reply: *mut u64,
    reply_len: usize,
): collartug_var_restrict);
entries!(Measure(
    n: u16,
    count: usize,
    nodes: *const u32,
    nodes_len: usize,
    work: *mut u32,
    work_len: usize,
    reply: *mut u64,
    reply_len: usize,
): collartug_support_set, collartug_exact_cardinality);

/// An entry with the arguments that it takes.
enum Entry {
    Negation(Negation),
    OnTwo(OnTwo),
    OnMark(OnMark),
    Restriction(Restriction),
    Measure(Measure),
}

fn entry(operator: Operator) -> Entry {
    match operator {
        Operator::Not => Entry::Negation(collartug_not),
        Operator::And => Entry::OnTwo(collartug_and),
        Operator::Or => Entry::OnTwo(collartug_or),
        Operator::AndNot => Entry::OnTwo(collartug_and_not),
        Operator::ForAll => Entry::OnMark(collartug_var_for_all),
        Operator::Exists => Entry::OnMark(collartug_var_exists),
        Operator::Restrict => Entry::Restriction(collartug_var_restrict),
        Operator::Support => Entry::Measure(collartug_support_set),
        Operator::Cardinality => Entry::Measure(collartug_exact_cardinality),
    }
}

/// Makes the call; the output is not looked at where the operator makes no table.
fn raw(call: &Operation, ((out, out_len), (work, work_len), (reply, reply_len)): Lending) -> u64 {
    let (n, mark, value, room) = (call.n, call.mark, call.value, call.space.room);
    let [(c, t, l), (d, u, k)] = [call.left, call.right].map(|table| (table.count, table.nodes.as_ptr(), table.nodes.len()));
    unsafe {
        match entry(call.operator) {
            Entry::Negation(call) => call(n, c, t, l, room, out, out_len, work, work_len, reply, reply_len),
            Entry::OnTwo(call) => call(n, c, t, l, d, u, k, room, out, out_len, work, work_len, reply, reply_len),
            Entry::OnMark(call) => call(n, c, t, l, mark, room, out, out_len, work, work_len, reply, reply_len),
            Entry::Restriction(call) => call(n, c, t, l, mark, value, room, out, out_len, work, work_len, reply, reply_len),
            Entry::Measure(call) => call(n, c, t, l, work, work_len, reply, reply_len),
        }
    }
}

/// Makes a call; it comes back with the reply, then the output (where it has one) and the work.
pub fn call(reply: Room, call: &Operation) -> Outcome {
    let (out, work) = (call.space.out, call.space.work);
    match call.operator.makes_table() {
        true => reply.call_making(out, work, |lending| raw(call, lending)),
        false => reply.call_working(work, |work, reply| raw(call, ((std::ptr::null_mut(), 0), work, reply))),
    }
}

/// Makes a call on buffers that the caller keeps: for measuring. All of each is lent, whatever the call's space says.
pub fn call_into(call: &Operation, out: &mut [u32], work: &mut [u32], reply: &mut [u64]) -> u64 {
    raw(call, ((out.as_mut_ptr(), out.len()), (work.as_mut_ptr(), work.len()), (reply.as_mut_ptr(), reply.len())))
}
