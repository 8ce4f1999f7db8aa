//! Counts the calls of each entry and its refusals, and objects where a refusal that an entry can give was never seen.
use crate::answer::{compare, Answer, Outcome, CLAUSE, CLAUSES, LEAST_REPLY, LIMIT, NODES, REDUCED, SHEET, SHORT, TABLE, VARIABLE};
use crate::proved::Room;
use std::collections::{BTreeMap, BTreeSet};

/// An entry: the refusals that it can give, and the first values that its answers must have had in a run.
pub struct Entry {
    pub name: &'static str,
    pub refusals: &'static [u64],
    first_values: &'static [u64],
}

impl Entry {
    /// An answer for each first value that is wanted, or one of any kind.
    pub fn firsts(&self) -> impl Iterator<Item = Answer> + '_ {
        let values = if self.first_values.is_empty() { &[0] } else { self.first_values };
        values.iter().map(|value| Answer::given(vec![*value]))
    }
}

const fn entry(name: &'static str, refusals: &'static [u64], first_values: &'static [u64]) -> Entry {
    Entry { name, refusals, first_values }
}

/// Both answers of a question.
const EITHER: &[u64] = &[0, 1];
/// No first value in particular.
const ANY: &[u64] = &[];

/// The entries; the sample numbers them in this order, so a new one comes last.
pub const ENTRIES: [Entry; 14] = [
    entry("inspect", &[LIMIT, SHORT, TABLE], &[0, 1, 2, 4095]),
    entry("eval_in", &[LIMIT, SHORT, VARIABLE, TABLE], EITHER),
    entry("empty", &[], ANY),
    entry("is_empty", &[CLAUSE], EITHER),
    entry("cardinality", &[CLAUSE], &[0, 1, 59, 60]),
    entry("last_fixed_variable", &[CLAUSE], EITHER),
    entry("to_values", &[CLAUSE], &[0, 1, 59, 60]),
    entry("from_values", &[VARIABLE], ANY),
    entry("get_value", &[VARIABLE, CLAUSE], EITHER),
    entry("has_value", &[VARIABLE, CLAUSE], EITHER),
    entry("set_value", &[VARIABLE, CLAUSE], ANY),
    entry("unset_value", &[VARIABLE, CLAUSE], ANY),
    entry("extends", &[CLAUSE], EITHER),
    entry("eq", &[CLAUSE], EITHER),
];

/// Refusals of the operators that make a table, without and with a mark, and of those that answer a number.
const MAKING: &[u64] = &[LIMIT, SHORT, TABLE, NODES];
const MAKING_WITH_MARK: &[u64] = &[LIMIT, SHORT, VARIABLE, TABLE, NODES];
const MEASURING: &[u64] = &[LIMIT, SHORT, TABLE];
/// False, true, a single mark, the greatest table: node counts that a run must have seen.
const SIZES: &[u64] = &[1, 2, 3, 4096];

/// The operators; the sample does not show them.
pub const OPERATORS: [Entry; 9] = [
    entry("not", MAKING, SIZES),
    entry("and", MAKING, SIZES),
    entry("or", MAKING, SIZES),
    entry("and_not", MAKING, SIZES),
    entry("var_for_all", MAKING_WITH_MARK, SIZES),
    entry("var_exists", MAKING_WITH_MARK, SIZES),
    entry("var_restrict", MAKING_WITH_MARK, SIZES),
    entry("support_set", MEASURING, &[0, 1, 1 << 59, (1 << 60) - 1]),
    entry("exact_cardinality", MEASURING, &[0, 1, (1 << 60) - 1, 1 << 60]),
];

/// The builders; the sample does not show them.
pub const BUILDERS: [Entry; 4] = [
    entry("mk_dnf", &[LIMIT, SHORT, CLAUSE, NODES], SIZES),
    entry("mk_cnf", &[LIMIT, SHORT, CLAUSE, NODES], SIZES),
    entry("mk_dnf_valuation", &[LIMIT, SHORT, VARIABLE, NODES], SIZES),
    entry("mk_cnf_valuation", &[LIMIT, SHORT, VARIABLE, NODES], SIZES),
];

/// The cover check; the sample does not show it.
pub const COVER: [Entry; 1] = [entry("check_cover", &[LIMIT, SHORT, CLAUSE, TABLE, NODES], EITHER)];

/// The extractors; the sample does not show them.
pub const EXTRACTORS: [Entry; 2] = [
    entry("to_dnf", &[LIMIT, SHORT, TABLE, CLAUSES], &[0, 1, 2, 1024]),
    entry("to_cnf", &[LIMIT, SHORT, TABLE, CLAUSES], &[0, 1, 2, 1024]),
];

/// The short list; the sample does not show it.
pub const SHORT_LIST: [Entry; 1] = [entry("to_optimized_dnf", &[LIMIT, SHORT, TABLE, NODES, CLAUSES], &[0, 1, 2, 1024])];

/// The walk, as far as it crosses the boundary; the sample does not show it.
pub const WALK: [Entry; 2] = [entry("walk_check", &[LIMIT, SHORT, TABLE, REDUCED], &[0, 1, 2, 4095]), entry("kth_step", &[], EITHER)];

/// The sheet reader: lists with either polarity, and tables; the sample does not show it.
pub const READER: [Entry; 1] = [entry("read_sheet", &[LIMIT, SHORT, CLAUSE, TABLE, CLAUSES, SHEET], &[1, 2, 3])];

/// Every entry that a run may call, family by family.
pub fn families() -> impl Iterator<Item = &'static [Entry]> {
    [&ENTRIES[..], &OPERATORS, &BUILDERS, &COVER, &EXTRACTORS, &SHORT_LIST, &WALK, &READER].into_iter()
}

/// How many first values of an entry are remembered.
const REMEMBERED: usize = 5000;

#[derive(Default)]
struct Count {
    calls: u64,
    answered: u64,
    first_values: BTreeSet<u64>,
    refused: BTreeMap<u64, u64>,
}

impl Count {
    fn add(&mut self, want: &Answer) {
        self.calls += 1;
        match want {
            Answer::Refused { number, .. } => *self.refused.entry(*number).or_default() += 1,
            Answer::Given { values, .. } => {
                self.answered += 1;
                if self.first_values.len() < REMEMBERED {
                    self.first_values.extend(values.first());
                }
            }
        }
    }

    fn absorb(&mut self, other: Count) {
        self.calls += other.calls;
        self.answered += other.answered;
        self.first_values.extend(other.first_values);
        for (number, times) in other.refused {
            *self.refused.entry(number).or_default() += times;
        }
    }

    /// Each of the entry's refusals and no other, and each of its first values, was seen.
    fn complete(&self, entry: &Entry) -> Result<(), String> {
        if self.answered == 0 {
            return Err("was never answered".to_string());
        }
        if !self.refused.keys().eq(entry.refusals) {
            return Err(format!("was refused with {:?}, not with {:?}", self.refused.keys(), entry.refusals));
        }
        match entry.first_values.iter().find(|value| !self.first_values.contains(value)) {
            Some(value) => Err(format!("never answered {value}")),
            None => Ok(()),
        }
    }
}

/// The calls of one test.
#[derive(Default)]
pub struct Tally {
    rooms: u64,
    entries: BTreeMap<&'static str, Count>,
}

impl Tally {
    pub fn new() -> Tally {
        Tally::default()
    }

    /// The next call's reply: of 64 to 80 words, in turn, with other rubbish each time.
    pub fn room(&mut self) -> Room {
        self.rooms += 1;
        Room { words: LEAST_REPLY + (self.rooms % 17) as usize, salt: self.rooms << 20 }
    }

    /// Counts a call and compares it, and stops the test where it differs; `input` describes the call.
    pub fn judge(&mut self, entry: &'static str, want: &Answer, got: &Outcome, input: impl FnOnce() -> String) {
        if let Err(what) = self.verdict(entry, want, got) {
            panic!("{what}\n  input: {}\n  wanted: {want:?}\n  reply: {:?}", input(), got.reply.words());
        }
    }

    /// Counts a call.
    pub fn count(&mut self, entry: &'static str, want: &Answer) {
        self.entries.entry(entry).or_default().add(want);
    }

    /// Counts a call and compares it.
    pub fn verdict(&mut self, entry: &'static str, want: &Answer, got: &Outcome) -> Result<(), String> {
        self.count(entry, want);
        compare(want, got).map_err(|what| format!("{entry}: {what}"))
    }

    /// Counts another tally's calls as its own.
    pub fn absorb(&mut self, other: Tally) {
        for (entry, count) in other.entries {
            self.entries.entry(entry).or_default().absorb(count);
        }
    }

    pub fn calls(&self) -> u64 {
        self.entries.values().map(|count| count.calls).sum()
    }

    pub fn refused(&self) -> u64 {
        self.calls() - self.entries.values().map(|count| count.answered).sum::<u64>()
    }

    pub fn print(&self) {
        for (entry, count) in &self.entries {
            println!("calls {entry} {} answered {}", count.calls, count.answered);
            for (number, times) in &count.refused {
                println!("refused {entry} {number} {times}");
            }
        }
    }

    /// How many entries were called.
    pub fn entries(&self) -> u64 {
        self.entries.len() as u64
    }

    /// Prints the counts; objects to too few calls, and to an answer or a refusal never seen.
    pub fn finish(&self, least: u64) {
        self.print();
        if let Err(what) = self.complete(least) {
            panic!("{what}");
        }
    }

    /// Enough calls were made, and each entry called has shown every kind of answer that it has.
    pub fn complete(&self, least: u64) -> Result<(), String> {
        if self.calls() < least {
            return Err(format!("{} calls were made, at least {least} are wanted", self.calls()));
        }
        for (name, count) in &self.entries {
            let entry = families().flatten().find(|entry| entry.name == *name).ok_or(format!("{name} is no entry"))?;
            count.complete(entry).map_err(|what| format!("{name} {what}"))?;
        }
        Ok(())
    }
}
