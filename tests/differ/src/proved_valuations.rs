//! The proved library's valuation calls. A valuation passes as two words: the fixed marks, then their values.
use crate::answer::Outcome;
use crate::proved::Room;
use crate::reading::Valuation;

extern "C" {
    fn collartug_empty(reply: *mut u64, reply_len: usize) -> u64;
    fn collartug_is_empty(fixed: u64, values: u64, reply: *mut u64, reply_len: usize) -> u64;
    fn collartug_cardinality(fixed: u64, values: u64, reply: *mut u64, reply_len: usize) -> u64;
    fn collartug_last_fixed_variable(fixed: u64, values: u64, reply: *mut u64, reply_len: usize) -> u64;
    fn collartug_to_values(fixed: u64, values: u64, reply: *mut u64, reply_len: usize) -> u64;
    fn collartug_from_values(words: *const u32, words_len: usize, reply: *mut u64, reply_len: usize) -> u64;
    fn collartug_get_value(fixed: u64, values: u64, id: u16, reply: *mut u64, reply_len: usize) -> u64;
    fn collartug_has_value(fixed: u64, values: u64, id: u16, reply: *mut u64, reply_len: usize) -> u64;
    fn collartug_set_value(fixed: u64, values: u64, id: u16, value: u64, reply: *mut u64, reply_len: usize) -> u64;
    fn collartug_unset_value(fixed: u64, values: u64, id: u16, reply: *mut u64, reply_len: usize) -> u64;
    fn collartug_extends(fixed: u64, values: u64, other_fixed: u64, other_values: u64, reply: *mut u64, reply_len: usize) -> u64;
    fn collartug_eq(fixed: u64, values: u64, other_fixed: u64, other_values: u64, reply: *mut u64, reply_len: usize) -> u64;
}

pub fn empty(room: Room) -> Outcome {
    room.call(|reply, len| unsafe { collartug_empty(reply, len) })
}

pub fn is_empty(room: Room, v: Valuation) -> Outcome {
    room.call(|reply, len| unsafe { collartug_is_empty(v.fixed, v.values, reply, len) })
}

pub fn cardinality(room: Room, v: Valuation) -> Outcome {
    room.call(|reply, len| unsafe { collartug_cardinality(v.fixed, v.values, reply, len) })
}

pub fn last_fixed_variable(room: Room, v: Valuation) -> Outcome {
    room.call(|reply, len| unsafe { collartug_last_fixed_variable(v.fixed, v.values, reply, len) })
}

pub fn to_values(room: Room, v: Valuation) -> Outcome {
    room.call(|reply, len| unsafe { collartug_to_values(v.fixed, v.values, reply, len) })
}

pub fn from_values(room: Room, words: &[u32]) -> Outcome {
    room.call(|reply, len| unsafe { collartug_from_values(words.as_ptr(), words.len(), reply, len) })
}

pub fn get_value(room: Room, v: Valuation, id: u16) -> Outcome {
    room.call(|reply, len| unsafe { collartug_get_value(v.fixed, v.values, id, reply, len) })
}

pub fn has_value(room: Room, v: Valuation, id: u16) -> Outcome {
    room.call(|reply, len| unsafe { collartug_has_value(v.fixed, v.values, id, reply, len) })
}

pub fn set_value(room: Room, v: Valuation, id: u16, value: u64) -> Outcome {
    room.call(|reply, len| unsafe { collartug_set_value(v.fixed, v.values, id, value, reply, len) })
}

pub fn unset_value(room: Room, v: Valuation, id: u16) -> Outcome {
    room.call(|reply, len| unsafe { collartug_unset_value(v.fixed, v.values, id, reply, len) })
}

pub fn extends(room: Room, v: Valuation, other: Valuation) -> Outcome {
    room.call(|reply, len| unsafe { collartug_extends(v.fixed, v.values, other.fixed, other.values, reply, len) })
}

pub fn eq(room: Room, v: Valuation, other: Valuation) -> Outcome {
    room.call(|reply, len| unsafe { collartug_eq(v.fixed, v.values, other.fixed, other.values, reply, len) })
}
