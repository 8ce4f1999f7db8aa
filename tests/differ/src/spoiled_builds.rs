//! Calls of builders that own their lists, so that any part of them can be spoiled.
use crate::building::Build;
use crate::random::Random;
use crate::spoiled::{cut, spoiled_n, spoiled_room, spoiled_space};

/// Counts over the limit; of some, a multiple is a small number again once it is cut to a word.
const OUTSIDE: [usize; 9] = [1025, 1026, 65_536, 65_538, 1 << 32, (1 << 32) + 3, usize::MAX / 2 + 2, 1 << 63, usize::MAX];

pub struct OwnedBuild {
    pub call: Build<'static>,
    pub list: Vec<u64>,
}

impl OwnedBuild {
    pub fn new(call: &Build) -> OwnedBuild {
        let Build { builder, n, count, list, space } = *call;
        OwnedBuild { call: Build { builder, n, count, list: &[], space }, list: list.to_vec() }
    }

    pub fn call(&self) -> Build<'_> {
        Build { list: &self.list, ..self.call }
    }

    /// Spoils one part, or two: the lowest number counts. The call may still be a good one.
    pub fn spoil(&mut self, random: &mut Random) {
        self.spoil_one(random);
        if random.once_in(3) {
            self.spoil_one(random);
        }
    }

    fn spoil_one(&mut self, random: &mut Random) {
        let call = &mut self.call;
        match random.below(8) {
            0 => call.n = spoiled_n(random, call.n),
            1 => call.count = spoiled_list_count(random, call.count),
            2 => cut(random, &mut self.list),
            3 => call.space = spoiled_space(random, call.space),
            4 => call.space.room = spoiled_room(random),
            _ => damage_list(random, call.n, &mut self.list),
        }
    }
}

pub fn spoiled_list_count(random: &mut Random, count: usize) -> usize {
    match random.coin() {
        true => random.pick(&[count.saturating_add(1), count.saturating_add(2), count.saturating_sub(1), 0, 1]),
        false => random.pick(&OUTSIDE),
    }
}

/// A bit turned over, a bit from n up set, or another word altogether, in one place or two.
pub fn damage_list(random: &mut Random, n: u16, list: &mut [u64]) {
    for _ in 0..if list.is_empty() { 0 } else { 1 + random.below(2) } {
        let at = random.below(list.len());
        let outside = 1 << (usize::from(n.min(63)) + random.below(64 - usize::from(n.min(63))));
        list[at] = match random.below(5) {
            0 => list[at] ^ 1 << random.below(64),
            1 => list[at] | outside,
            2 => list[at] ^ 1 << random.below(usize::from(n.clamp(1, 63))),
            3 => random.word(),
            _ => random.pick(&[0, 1, 1 << 31, 1 << 32, 1 << 59, 1 << 60, 1 << 63, u64::MAX]),
        };
    }
}
