//! A call of one of the two extractors: all that crosses the boundary, but for the reply.
use crate::operation::Table;

#[derive(Clone, Copy, Debug, PartialEq, Eq)]
pub enum Extractor {
    Dnf,
    Cnf,
}

impl Extractor {
    pub const ALL: [Extractor; 2] = [Extractor::Dnf, Extractor::Cnf];

    /// The entry's name, without the prefix of the exports.
    pub fn name(self) -> &'static str {
        match self {
            Extractor::Dnf => "to_dnf",
            Extractor::Cnf => "to_cnf",
        }
    }

    /// The node to which the listed paths lead.
    pub fn target(self) -> u32 {
        match self {
            Extractor::Dnf => 1,
            Extractor::Cnf => 0,
        }
    }
}

/// A table, and how many words of clause output and of work are lent.
#[derive(Clone, Copy, Debug)]
pub struct Extraction<'a> {
    pub extractor: Extractor,
    pub n: u16,
    pub table: Table<'a>,
    pub out: usize,
    pub work: usize,
}

impl<'a> Extraction<'a> {
    /// A call on a whole table with so many words of output, the least work that will do, and this many words of it more.
    pub fn whole(extractor: Extractor, n: u16, nodes: &'a [u32], out: usize, more: usize) -> Extraction<'a> {
        let mut call = Extraction { extractor, n, table: Table::whole(nodes), out, work: 0 };
        call.work = call.least_work() + more;
        call
    }

    /// The fewest words of work; only asked where the count is within the limits.
    pub fn least_work(&self) -> usize {
        12 * self.table.count + 192
    }
}
