//! Calls of operators that own their tables, so that any part of them can be spoiled.
use crate::copies::damage;
use crate::operation::{Operation, Space, Table};
use crate::random::Random;

/// Counts and rooms outside the limits; of some, a multiple is a small number again once it is cut to a word.
const OUTSIDE: [usize; 12] =
    [0, 4097, 4098, 65_536, 65_538, 1 << 32, (1 << 32) + 3, usize::MAX / 3 + 2, usize::MAX / 12 + 1, 1 << 63, usize::MAX - 1, usize::MAX];

pub struct Owned {
    pub call: Operation<'static>,
    pub left: (usize, Vec<u32>),
    pub right: (usize, Vec<u32>),
}

impl Owned {
    pub fn new(call: &Operation) -> Owned {
        let owned = |table: Table| (table.count, table.nodes.to_vec());
        let nothing = Table { count: 0, nodes: &[] };
        let Operation { operator, n, left, right, mark, value, space } = *call;
        let call = Operation { operator, n, left: nothing, right: nothing, mark, value, space };
        Owned { call, left: owned(left), right: owned(right) }
    }

    pub fn call(&self) -> Operation<'_> {
        let left = Table { count: self.left.0, nodes: &self.left.1 };
        let right = Table { count: self.right.0, nodes: &self.right.1 };
        Operation { left, right, ..self.call }
    }

    /// Spoils one part, or two: the lowest number counts. The call may still be a good one.
    pub fn spoil(&mut self, random: &mut Random) {
        self.spoil_one(random);
        if random.once_in(3) {
            self.spoil_one(random);
        }
    }

    fn spoil_one(&mut self, random: &mut Random) {
        let left_or_right = if random.coin() { &mut self.left } else { &mut self.right };
        match random.below(8) {
            0 => self.call.n = spoiled_n(random, self.call.n),
            1 => left_or_right.0 = spoiled_count(random, left_or_right.0),
            2 => cut(random, &mut left_or_right.1),
            3 => self.call.space = spoiled_space(random, self.call.space),
            4 => self.call.mark = spoiled_mark(random, self.call.n),
            5 => self.call.space.room = spoiled_room(random),
            _ => damage_words(random, &mut left_or_right.1),
        }
    }
}

pub fn spoiled_n(random: &mut Random, n: u16) -> u16 {
    random.pick(&[61, 62, 64, 255, 256, 65_535, n.saturating_add(1), n.saturating_sub(1), n | 256])
}

pub fn spoiled_count(random: &mut Random, count: usize) -> usize {
    match random.coin() {
        true => random.pick(&[count.saturating_add(1), count.saturating_add(2), count.saturating_sub(1), 1, 2]),
        false => random.pick(&OUTSIDE),
    }
}

pub fn spoiled_room(random: &mut Random) -> usize {
    match random.coin() {
        true => random.pick(&[0, 1, 2]),
        false => random.pick(&OUTSIDE),
    }
}

/// A mark from n up; of some, the low byte is a good mark.
fn spoiled_mark(random: &mut Random, n: u16) -> u16 {
    random.pick(&[n, n.saturating_add(1), 59, 60, 61, 255, 256, 32_768, 65_535])
}

pub fn cut<T>(random: &mut Random, words: &mut Vec<T>) {
    let short_by = if random.coin() { 1 } else { 1 + random.below(words.len() + 1) };
    words.truncate(words.len().saturating_sub(short_by));
}

/// Short of what is needed by a word, by some, or by all.
pub fn shorter(random: &mut Random, needed: usize) -> usize {
    match random.below(3) {
        0 => needed.saturating_sub(1),
        1 => random.below(needed + 1),
        _ => 0,
    }
}

/// Output or work too short.
pub fn spoiled_space(random: &mut Random, space: Space) -> Space {
    let Space { room, out, work } = space;
    if random.coin() {
        Space { room, out: shorter(random, out.min(room.saturating_mul(3))), work }
    } else {
        Space { room, out, work: shorter(random, work) }
    }
}

pub fn damage_words(random: &mut Random, words: &mut [u32]) {
    for _ in 0..if words.is_empty() { 0 } else { 1 + random.below(2) } {
        let at = random.below(words.len());
        words[at] = damage(random, words, at);
    }
}
