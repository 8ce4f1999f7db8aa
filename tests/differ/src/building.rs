//! A call of one of the four builders: all that crosses the boundary, but for the reply.
use crate::operation::Space;
use crate::reading::Valuation;

#[derive(Clone, Copy, Debug, PartialEq, Eq)]
pub enum Builder {
    Dnf,
    Cnf,
    DnfValuation,
    CnfValuation,
}

use Builder::*;

impl Builder {
    pub const ALL: [Builder; 4] = [Dnf, Cnf, DnfValuation, CnfValuation];

    /// The entry's name, without the prefix of the exports.
    pub fn name(self) -> &'static str {
        match self {
            Dnf => "mk_dnf",
            Cnf => "mk_cnf",
            DnfValuation => "mk_dnf_valuation",
            CnfValuation => "mk_cnf_valuation",
        }
    }

    /// The list holds cases, of one word each; otherwise clauses, of two.
    pub fn takes_cases(self) -> bool {
        matches!(self, DnfValuation | CnfValuation)
    }

    /// Some entry is to hold; otherwise each has a literal that is to hold.
    pub fn is_dnf(self) -> bool {
        matches!(self, Dnf | DnfValuation)
    }

    pub fn words_per_entry(self) -> usize {
        if self.takes_cases() {
            1
        } else {
            2
        }
    }

    /// The words of a list of clauses; a list of cases keeps their values alone.
    pub fn words(self, clauses: &[Valuation]) -> Vec<u64> {
        let words = |clause: &Valuation| if self.takes_cases() { vec![clause.values] } else { vec![clause.fixed, clause.values] };
        clauses.iter().flat_map(words).collect()
    }
}

/// All marks below n.
pub fn all_marks(n: u16) -> u64 {
    (0..n).fold(0, |marks, mark| marks | 1 << mark)
}

/// A call: any count with any words.
#[derive(Clone, Copy, Debug)]
pub struct Build<'a> {
    pub builder: Builder,
    pub n: u16,
    pub count: usize,
    pub list: &'a [u64],
    pub space: Space,
}

impl<'a> Build<'a> {
    /// A call on a whole list, without room and buffers, which `with_space` gives it.
    pub fn whole(builder: Builder, n: u16, list: &'a [u64]) -> Build<'a> {
        let space = Space { room: 2, out: 0, work: 0 };
        Build { builder, n, count: list.len() / builder.words_per_entry(), list, space }
    }

    /// The fewest words of work; only asked where the room is within the limits.
    pub fn least_work(&self) -> usize {
        12 * self.space.room + 192
    }

    /// The same call with the smallest buffers that will do, and this many words more.
    pub fn with_space(mut self, room: usize, more: usize) -> Build<'a> {
        self.space = Space { room, out: 3 * room + more, work: 0 };
        self.space.work = self.least_work() + more;
        self
    }

    /// The counted entries as clauses: a case fixes every mark. Only asked where the slice holds the count.
    pub fn clauses(&self) -> Vec<Valuation> {
        let words = self.list.chunks(self.builder.words_per_entry()).take(self.count);
        match self.builder.takes_cases() {
            true => words.map(|case| Valuation { fixed: all_marks(self.n), values: case[0] }).collect(),
            false => words.map(|clause| Valuation { fixed: clause[0], values: clause[1] }).collect(),
        }
    }
}
