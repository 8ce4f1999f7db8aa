//! A call of the short list: all that crosses the boundary, but for the reply.
use crate::operation::Table;

/// The entry's name, without the prefix of the exports.
pub const NAME: &str = "to_optimized_dnf";

/// A table, the node room, and how many words of clause output and of work are lent.
#[derive(Clone, Copy, Debug)]
pub struct Shortening<'a> {
    pub n: u16,
    pub table: Table<'a>,
    pub room: usize,
    pub out: usize,
    pub work: usize,
}

impl<'a> Shortening<'a> {
    /// A call on a whole table with this room, so many words of output, the least work that will do, and this many words of it more.
    pub fn whole(n: u16, nodes: &'a [u32], room: usize, out: usize, more: usize) -> Shortening<'a> {
        let mut call = Shortening { n, table: Table::whole(nodes), room, out, work: 0 };
        call.work = call.least_work() + more;
        call
    }

    /// The fewest words of work; only asked where marks, count and room are within the limits.
    pub fn least_work(&self) -> usize {
        24 * self.room.max(self.table.count) * (usize::from(self.n) + 2) + 192
    }
}
