//! The proved library's table calls. What a call may touch is lent here, filled with rubbish, and comes back whole.
use crate::answer::Outcome;
use crate::lent::{Buffer, Lent};

/// Declares entries that take the same arguments, and the type that they share. A slice crosses as where it starts, then how many words it has.
macro_rules! entries {
    ($kind:ident $arguments:tt: $($name:ident),*) => {
        type $kind = unsafe extern "C" fn $arguments -> u64;
        extern "C" {
            $(fn $name $arguments -> u64;)*
        }
    };
}
pub(crate) use entries;

extern "C" {
    fn collartug_inspect(n: u16, count: usize, nodes: *const u32, nodes_len: usize, reply: *mut u64, reply_len: usize) -> u64;
    fn collartug_eval_in(n: u16, count: usize, nodes: *const u32, nodes_len: usize, case: u64, reply: *mut u64, reply_len: usize) -> u64;
}

/// A buffer that a call may write: where it starts, and how many words it has.
pub(crate) type Writable<T> = (*mut T, usize);
/// The buffers of an entry that makes a table: output, work and reply.
pub(crate) type Lending = (Writable<u32>, Writable<u32>, Writable<u64>);

/// The reply buffer of one call: how many words it has, and the salt of the rubbish in all lent words.
#[derive(Clone, Copy, Debug)]
pub struct Room {
    pub words: usize,
    pub salt: u64,
}

impl Room {
    /// Makes a call that lends nothing but the reply.
    pub(crate) fn call(self, call: impl FnOnce(*mut u64, usize) -> u64) -> Outcome {
        self.call_lending(Vec::new(), |_, reply, len| call(reply, len))
    }

    /// Makes a call that lends buffers too; it finds them in the order in which they are given.
    pub(crate) fn call_lending(self, mut lent: Vec<Buffer>, call: impl FnOnce(&mut [Buffer], *mut u64, usize) -> u64) -> Outcome {
        let mut reply = Lent::new(self.words, self.salt);
        let returned = call(&mut lent, reply.start(), reply.len());
        Outcome { returned, reply, lent }
    }

    /// Makes a call that lends work and the reply.
    pub(crate) fn call_working(self, work: usize, call: impl FnOnce(Writable<u32>, Writable<u64>) -> u64) -> Outcome {
        self.call_lending(vec![self.narrow(work, 2)], |lent, reply, len| call(lent[0].narrow(), (reply, len)))
    }

    /// Makes a call that lends a node output, work and the reply.
    pub(crate) fn call_making(self, out: usize, work: usize, call: impl FnOnce(Lending) -> u64) -> Outcome {
        self.call_lending(vec![self.narrow(out, 1), self.narrow(work, 2)], |lent, reply, len| {
            let (out, work) = (lent[0].narrow(), lent[1].narrow());
            call((out, work, (reply, len)))
        })
    }

    /// Makes a call that lends a clause output, work and the reply.
    pub(crate) fn call_listing(
        self,
        out: usize,
        work: usize,
        call: impl FnOnce(Writable<u64>, Writable<u32>, Writable<u64>) -> u64,
    ) -> Outcome {
        let wide = Buffer::Wide(Lent::new(out, self.salt ^ 1 << 60));
        self.call_lending(vec![wide, self.narrow(work, 2)], |lent, reply, len| {
            let (out, work) = (lent[0].wide(), lent[1].narrow());
            call(out, work, (reply, len))
        })
    }

    /// Each lent buffer has rubbish of its own.
    fn narrow(self, len: usize, which: u64) -> Buffer {
        Buffer::Narrow(Lent::new(len, self.salt ^ which << 60))
    }
}

pub fn inspect(room: Room, n: u16, count: usize, nodes: &[u32]) -> Outcome {
    room.call(|reply, len| unsafe { collartug_inspect(n, count, nodes.as_ptr(), nodes.len(), reply, len) })
}

pub fn eval_in(room: Room, n: u16, count: usize, nodes: &[u32], case: u64) -> Outcome {
    room.call(|reply, len| unsafe { collartug_eval_in(n, count, nodes.as_ptr(), nodes.len(), case, reply, len) })
}
