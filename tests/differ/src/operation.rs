//! A call of one of the nine operators: all that crosses the boundary, but for the reply.

#[derive(Clone, Copy, Debug, PartialEq, Eq)]
pub enum Operator {
    Not,
    And,
    Or,
    AndNot,
    ForAll,
    Exists,
    Restrict,
    Support,
    Cardinality,
}

use Operator::*;

impl Operator {
    pub const ALL: [Operator; 9] = [Not, And, Or, AndNot, ForAll, Exists, Restrict, Support, Cardinality];
    pub const BINARY: [Operator; 3] = [And, Or, AndNot];

    /// The entry's name, without the prefix of the exports.
    pub fn name(self) -> &'static str {
        match self {
            Not => "not",
            And => "and",
            Or => "or",
            AndNot => "and_not",
            ForAll => "var_for_all",
            Exists => "var_exists",
            Restrict => "var_restrict",
            Support => "support_set",
            Cardinality => "exact_cardinality",
        }
    }

    pub fn is_binary(self) -> bool {
        matches!(self, And | Or | AndNot)
    }

    pub fn takes_mark(self) -> bool {
        matches!(self, ForAll | Exists | Restrict)
    }

    /// The answer is a table, so there is a room and a node output; otherwise it is a number.
    pub fn makes_table(self) -> bool {
        !matches!(self, Support | Cardinality)
    }
}

/// A table as it is handed over: any count with any words.
#[derive(Clone, Copy, Debug)]
pub struct Table<'a> {
    pub count: usize,
    pub nodes: &'a [u32],
}

impl<'a> Table<'a> {
    /// A table whose words are all its own.
    pub fn whole(nodes: &'a [u32]) -> Table<'a> {
        Table { count: nodes.len() / 3, nodes }
    }
}

/// The node room, and how many words of output and of work are lent.
#[derive(Clone, Copy, Debug)]
pub struct Space {
    pub room: usize,
    pub out: usize,
    pub work: usize,
}

/// A call. What its operator does not take (the right table, the mark, the value, the room) is not looked at.
#[derive(Clone, Copy, Debug)]
pub struct Operation<'a> {
    pub operator: Operator,
    pub n: u16,
    pub left: Table<'a>,
    pub right: Table<'a>,
    pub mark: u16,
    pub value: u64,
    pub space: Space,
}

impl<'a> Operation<'a> {
    /// The tables that the operator takes, in the order of the arguments.
    pub fn tables(&self) -> impl Iterator<Item = Table<'a>> {
        let taken = if self.operator.is_binary() { 2 } else { 1 };
        [self.left, self.right].into_iter().take(taken)
    }

    /// The larger of the room and every node count, as far as the operator has them.
    fn widest(&self) -> usize {
        let room = if self.operator.makes_table() { self.space.room } else { 0 };
        self.tables().map(|table| table.count).fold(room, usize::max)
    }

    /// The fewest words of work; only asked where room and counts are within the limits.
    pub fn least_work(&self) -> usize {
        12 * self.widest() + 192
    }

    /// The same call with the smallest buffers that will do, and this many words more.
    pub fn with_space(mut self, room: usize, more: usize) -> Operation<'a> {
        self.space = Space { room, out: 3 * room + more, work: 0 };
        self.space.work = self.least_work() + more;
        self
    }
}
