//! A call of the cover check: all that crosses the boundary, but for the reply.
use crate::building::{Build, Builder};
use crate::operation::{Space, Table};

/// A table, a list of clauses, the node room, and how many words of work are lent.
#[derive(Clone, Copy, Debug)]
pub struct Cover<'a> {
    pub n: u16,
    pub table: Table<'a>,
    pub clause_count: usize,
    pub clauses: &'a [u64],
    pub room: usize,
    pub work: usize,
}

impl<'a> Cover<'a> {
    /// A call on a whole table and a whole list, without room and work, which `with_space` gives it.
    pub fn whole(n: u16, nodes: &'a [u32], clauses: &'a [u64]) -> Cover<'a> {
        Cover { n, table: Table::whole(nodes), clause_count: clauses.len() / 2, clauses, room: 2, work: 0 }
    }

    /// The fewest words of work; only asked where room and count are within the limits.
    pub fn least_work(&self) -> usize {
        12 * self.room.max(self.table.count) + 192
    }

    /// The same call with the least work that will do, and this many words more.
    pub fn with_space(mut self, room: usize, more: usize) -> Cover<'a> {
        self.room = room;
        self.work = self.least_work() + more;
        self
    }

    /// The list alone, as it would be built: its opening runs are those that the check is refused for.
    pub fn build(&self) -> Build<'a> {
        let space = Space { room: self.room, out: 0, work: 0 };
        Build { builder: Builder::Dnf, n: self.n, count: self.clause_count, list: self.clauses, space }
    }
}
