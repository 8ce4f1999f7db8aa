//! A sample of calls with all that is wanted of them, for the program `replay`, which has no Rust side.
//! A line has decimal numbers and single spaces: the entry's place in `names()`; four numbers of the call; count, length and words of a first table, of a
//! second one and of a list; the lengths of the three lent buffers (nodes, clauses, work); what is wanted of the reply, of 64 words, and of these three.
//! The numbers stand in the order of the call, without counts and lengths; what an entry does not take is 0. What is wanted of a buffer is 0 where the
//! call is to leave it alone, or 1 more than the words that follow, and zeros behind them.
//! The bytes of a sheet stand in the list. So do both lists of choose_posting, one after the other; the first number says how long the DNF is, and the
//! clause buffer takes the whole part that is chosen. `kth_step` starts a walk and makes its steps up to one: the lines of a table show each step's words.
//! `walk` starts one walk and makes all its steps and two more; its reply is the start's refusal, or two 0, and one number, to which every word of every
//! step has been added (`noted`).
use crate::answer::{Answer, CLAUSES, NODES};
use crate::tally::families;

/// The most words that the program holds: of a table, of a list, of each lent buffer, and numbers of a line.
pub const MOST_TABLE: usize = 96;
pub const MOST_LIST: usize = 512;
pub const MOST_LENT: [usize; 3] = [384, 128, 8192];
pub const MOST_NUMBERS: usize = 1024;

/// The entries in the order of their places.
pub fn names() -> Vec<&'static str> {
    families().flatten().map(|entry| entry.name).chain(["choose_posting", "walk"]).collect()
}

/// The lent buffers, in the order of a line.
#[derive(Clone, Copy)]
pub enum Lent {
    Nodes,
    Clauses,
    Work,
}

#[derive(Clone, Debug, Default, PartialEq, Eq)]
pub struct Call {
    pub entry: &'static str,
    pub numbers: [u64; 4],
    /// Count and words.
    pub left: (u64, Vec<u64>),
    pub right: (u64, Vec<u64>),
    pub list: (u64, Vec<u64>),
    pub lent: [u64; 3],
    /// Number, place and values.
    pub reply: Vec<u64>,
    /// For each lent buffer the words it starts with, or none where it is left alone.
    pub wanted: [Option<Vec<u64>>; 3],
}

fn wide(words: &[u32]) -> Vec<u64> {
    words.iter().map(|word| u64::from(*word)).collect()
}

impl Call {
    pub fn new(entry: &'static str, numbers: &[u64], answer: &Answer) -> Call {
        let mut four = [0; 4];
        four[..numbers.len()].copy_from_slice(numbers);
        Call { entry, numbers: four, reply: answer.reply(), ..Call::default() }
    }

    pub fn left(mut self, count: usize, nodes: &[u32]) -> Call {
        self.left = (count as u64, wide(nodes));
        self
    }

    pub fn right(mut self, count: usize, nodes: &[u32]) -> Call {
        self.right = (count as u64, wide(nodes));
        self
    }

    pub fn list(mut self, count: usize, words: &[u64]) -> Call {
        self.list = (count as u64, words.to_vec());
        self
    }

    /// The buffers that are lent, in the order of the call, and what the answer makes of them.
    pub fn lent(mut self, buffers: &[(Lent, usize)], answer: &Answer) -> Call {
        for (k, (lent, words)) in buffers.iter().enumerate() {
            self.lent[*lent as usize] = *words as u64;
            self.wanted[*lent as usize] = match answer {
                Answer::Refused { number: NODES | CLAUSES, .. } => Some(vec![]),
                Answer::Refused { .. } => None,
                Answer::Given { outs, .. } => Some(outs[k].clone()),
            };
        }
        self
    }

    /// The program's buffers hold it.
    pub fn fits(&self) -> bool {
        let inputs = self.left.1.len().max(self.right.1.len()) <= MOST_TABLE && self.list.1.len() <= MOST_LIST;
        inputs && self.lent.iter().zip(MOST_LENT).all(|(words, most)| *words <= most as u64) && self.words().len() <= MOST_NUMBERS
    }

    fn words(&self) -> Vec<u64> {
        let entry = names().iter().position(|name| *name == self.entry).unwrap() as u64;
        let mut words = [&[entry], &self.numbers[..]].concat();
        for (count, slice) in [&self.left, &self.right, &self.list] {
            words.extend([*count, slice.len() as u64].iter().chain(slice));
        }
        words.extend(self.lent);
        let reply = Some(self.reply.clone());
        for wanted in [&reply].into_iter().chain(&self.wanted) {
            let begin = wanted.as_ref().map_or(vec![0], |begin| [&[1 + begin.len() as u64], &begin[..]].concat());
            words.extend(begin);
        }
        words
    }

    pub fn line(&self) -> String {
        self.words().iter().map(u64::to_string).collect::<Vec<_>>().join(" ")
    }
}

/// The whole sample: what the program reads.
pub fn text() -> String {
    crate::sampled::calls().iter().map(|call| call.line() + "\n").collect()
}
