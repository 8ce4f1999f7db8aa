//! Calls of the cover check that own their table and list, so that any part of them can be spoiled.
use crate::covering::Cover;
use crate::operation::Table;
use crate::random::Random;
use crate::spoiled::{cut, damage_words, shorter, spoiled_count, spoiled_n, spoiled_room};
use crate::spoiled_builds::{damage_list, spoiled_list_count};

pub struct OwnedCover {
    pub call: Cover<'static>,
    pub nodes: Vec<u32>,
    pub clauses: Vec<u64>,
}

impl OwnedCover {
    pub fn new(call: &Cover) -> OwnedCover {
        let Cover { n, table, clause_count, clauses, room, work } = *call;
        let nothing = Table { count: table.count, nodes: &[] };
        let call = Cover { n, table: nothing, clause_count, clauses: &[], room, work };
        OwnedCover { call, nodes: table.nodes.to_vec(), clauses: clauses.to_vec() }
    }

    pub fn call(&self) -> Cover<'_> {
        let table = Table { count: self.call.table.count, nodes: &self.nodes };
        Cover { table, clauses: &self.clauses, ..self.call }
    }

    /// Spoils one part, or two: the lowest number counts. The call may still be a good one.
    pub fn spoil(&mut self, random: &mut Random) {
        self.spoil_one(random);
        if random.once_in(3) {
            self.spoil_one(random);
        }
    }

    fn spoil_one(&mut self, random: &mut Random) {
        let call = &mut self.call;
        match random.below(12) {
            0 => call.n = spoiled_n(random, call.n),
            1 => call.table.count = spoiled_count(random, call.table.count),
            2 => call.clause_count = spoiled_list_count(random, call.clause_count),
            3 => cut(random, &mut self.nodes),
            4 => cut(random, &mut self.clauses),
            5 => call.work = shorter(random, call.work),
            6 => call.room = spoiled_room(random),
            7..=9 => damage_words(random, &mut self.nodes),
            _ => damage_list(random, call.n, &mut self.clauses),
        }
    }
}
