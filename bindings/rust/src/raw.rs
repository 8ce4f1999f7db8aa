//! The library's calls as C sees them; include/collartug.h says what each does. A slice is a pointer and its length.

/// Declares calls that take the same arguments.
macro_rules! calls {
    ($arguments:tt: $($name:ident),*) => {
        extern "C" {
            $(pub fn $name $arguments -> u64;)*
        }
    };
}

calls! {
    (n: u16, count: usize, clauses: *const u64, clauses_len: usize, room: usize, out: *mut u32, out_len: usize, work: *mut u32, work_len: usize, reply: *mut u64, reply_len: usize):
    collartug_mk_dnf, collartug_mk_cnf, collartug_mk_dnf_valuation, collartug_mk_cnf_valuation
}
calls! {
    (n: u16, count: usize, nodes: *const u32, nodes_len: usize, reply: *mut u64, reply_len: usize):
    collartug_inspect, collartug_walk_check
}
calls! {
    (n: u16, count: usize, nodes: *const u32, nodes_len: usize, k: u32, reply: *mut u64, reply_len: usize):
    collartug_kth_step
}
calls! {
    (n: u16, count: usize, nodes: *const u32, nodes_len: usize, a_case: u64, reply: *mut u64, reply_len: usize):
    collartug_eval_in
}
calls! {
    (n: u16, count: usize, nodes: *const u32, nodes_len: usize, work: *mut u32, work_len: usize, reply: *mut u64, reply_len: usize):
    collartug_exact_cardinality, collartug_support_set
}
calls! {
    (n: u16, count: usize, nodes: *const u32, nodes_len: usize, clause_count: usize, clauses: *const u64, clauses_len: usize, room: usize, work: *mut u32, work_len: usize, reply: *mut u64, reply_len: usize):
    collartug_check_cover
}
calls! {
    (n: u16, count: usize, nodes: *const u32, nodes_len: usize, out: *mut u64, out_len: usize, work: *mut u32, work_len: usize, reply: *mut u64, reply_len: usize):
    collartug_to_dnf, collartug_to_cnf
}
calls! {
    (n: u16, count: usize, nodes: *const u32, nodes_len: usize, room: usize, out: *mut u64, out_len: usize, work: *mut u32, work_len: usize, reply: *mut u64, reply_len: usize):
    collartug_to_optimized_dnf
}
calls! {
    (dnf: *const u64, dnf_len: usize, cnf: *const u64, cnf_len: usize, reply: *mut u64, reply_len: usize):
    collartug_choose_posting
}
calls! {
    (n: u16, count: usize, nodes: *const u32, nodes_len: usize, room: usize, out: *mut u32, out_len: usize, work: *mut u32, work_len: usize, reply: *mut u64, reply_len: usize):
    collartug_not
}
calls! {
    (n: u16, left_count: usize, left: *const u32, left_len: usize, right_count: usize, right: *const u32, right_len: usize, room: usize, out: *mut u32, out_len: usize, work: *mut u32, work_len: usize, reply: *mut u64, reply_len: usize):
    collartug_and, collartug_or, collartug_and_not
}
calls! {
    (n: u16, count: usize, nodes: *const u32, nodes_len: usize, mark: u16, room: usize, out: *mut u32, out_len: usize, work: *mut u32, work_len: usize, reply: *mut u64, reply_len: usize):
    collartug_var_for_all, collartug_var_exists
}
calls! {
    (n: u16, count: usize, nodes: *const u32, nodes_len: usize, mark: u16, value: u64, room: usize, out: *mut u32, out_len: usize, work: *mut u32, work_len: usize, reply: *mut u64, reply_len: usize):
    collartug_var_restrict
}
calls! {
    (fixed: u64, values: u64, reply: *mut u64, reply_len: usize):
    collartug_is_empty, collartug_cardinality, collartug_last_fixed_variable, collartug_to_values
}
calls! {
    (fixed: u64, values: u64, mark: u16, reply: *mut u64, reply_len: usize):
    collartug_get_value, collartug_has_value, collartug_unset_value
}
calls! {
    (fixed: u64, values: u64, mark: u16, value: u64, reply: *mut u64, reply_len: usize):
    collartug_set_value
}
calls! {
    (fixed: u64, values: u64, other_fixed: u64, other_values: u64, reply: *mut u64, reply_len: usize):
    collartug_extends, collartug_eq
}
calls! {
    (entries: *const u32, entries_len: usize, reply: *mut u64, reply_len: usize):
    collartug_from_values
}
calls! {
    (bytes: *const u8, bytes_len: usize, clauses: *mut u64, clauses_len: usize, nodes: *mut u32, nodes_len: usize, reply: *mut u64, reply_len: usize):
    collartug_read_sheet
}
