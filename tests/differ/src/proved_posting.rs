//! The proved library's posting choice. The part of the caller's own words cannot cross: its length, its first and its last word do.
use crate::answer::Outcome;
use crate::proved::Room;

extern "C" {
    fn collartug_choose_posting(dnf: *const u64, dnf_len: usize, cnf: *const u64, cnf_len: usize, reply: *mut u64, reply_len: usize)
        -> u64;
}

pub fn choose_posting(room: Room, dnf: &[u64], cnf: &[u64]) -> Outcome {
    room.call(|reply, len| unsafe { collartug_choose_posting(dnf.as_ptr(), dnf.len(), cnf.as_ptr(), cnf.len(), reply, len) })
}
