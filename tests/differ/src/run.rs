//! The calls of a long run: counted and compared, and held to the shares that the run must reach.
use crate::answer::{Answer, Outcome};
use crate::tally::Tally;

/// The least of each kind of call that a run must have made.
#[derive(Clone, Copy, Debug)]
pub struct Shares {
    pub calls: u64,
    pub large: u64,
    pub refused: u64,
    pub entries: u64,
}

/// A run, and how many of its calls were large; what is large is the test's to say.
#[derive(Default)]
pub struct Run {
    pub tally: Tally,
    pub large: u64,
}

impl Run {
    /// Counts a call and compares it, and stops the test where it differs; `input` describes the call.
    pub fn judge(&mut self, entry: &'static str, want: &Answer, got: &Outcome, large: bool, input: impl FnOnce() -> String) {
        self.large += u64::from(large);
        self.tally.judge(entry, want, got, input);
    }

    pub fn absorb(&mut self, other: Run) {
        self.large += other.large;
        self.tally.absorb(other.tally);
    }

    /// Every entry was called enough, and in every way that counts.
    pub fn enough(&self, least: Shares) -> Result<(), String> {
        self.tally.complete(least.calls)?;
        let shares = [
            ("large", self.large, least.large),
            ("refused", self.tally.refused(), least.refused),
            ("entries", self.tally.entries(), least.entries),
        ];
        match shares.iter().find(|(_, seen, least)| seen < least) {
            Some((what, seen, least)) => Err(format!("{what}: {seen}, at least {least} are wanted")),
            None => Ok(()),
        }
    }

    /// Prints the counts and objects to shares that were not reached.
    pub fn finish(&self, what: &str, least: Shares) {
        println!("calls of {what}: {}, refused: {}, large: {}", self.tally.calls(), self.tally.refused(), self.large);
        self.tally.print();
        assert_eq!(self.enough(least), Ok(()));
    }
}
