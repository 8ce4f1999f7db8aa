use crate::{answer, raw, Refusal};

/// A clause: which marks it fixes, and to which values. Bit i is mark i. Any two words may be put in; the library says what is wrong.
#[derive(Clone, Copy, Debug, Default, PartialEq, Eq, Hash)]
pub struct Clause {
    pub fixed: u64,
    pub values: u64,
}

impl Clause {
    /// Reads a text such as `1-0`: character i is mark i. None for another character, or over 60 of them.
    pub fn parse(text: &str) -> Option<Clause> {
        let mut clause = Clause::default();
        for (i, cell) in text.chars().enumerate() {
            if i >= crate::MOST_MARKS as usize {
                return None;
            }
            match cell {
                '-' => {}
                '0' => clause.fixed |= 1 << i,
                '1' => {
                    clause.fixed |= 1 << i;
                    clause.values |= 1 << i;
                }
                _ => return None,
            }
        }
        Some(clause)
    }

    /// The text of a clause over n marks.
    pub fn text(self, n: u16) -> String {
        let cell = |i: u16| match (self.fixed >> i & 1, self.values >> i & 1) {
            (0, _) => '-',
            (_, 0) => '0',
            _ => '1',
        };
        (0..n.min(64)).map(cell).collect()
    }

    /// The clause of entries 2·mark + value; the last one wins.
    pub fn from_values(entries: &[u32]) -> Result<Clause, Refusal> {
        let words = answer(|reply, len| unsafe { raw::collartug_from_values(entries.as_ptr(), entries.len(), reply, len) })?;
        Ok(Clause { fixed: words[0], values: words[1] })
    }

    /// The entries 2·mark + value of the fixed marks, rising.
    pub fn to_values(self) -> Result<Vec<u32>, Refusal> {
        let words = answer(|reply, len| unsafe { raw::collartug_to_values(self.fixed, self.values, reply, len) })?;
        Ok(words[1..][..words[0] as usize].iter().map(|word| *word as u32).collect())
    }

    pub fn is_empty(self) -> Result<bool, Refusal> {
        Ok(answer(|reply, len| unsafe { raw::collartug_is_empty(self.fixed, self.values, reply, len) })?[0] == 1)
    }

    /// The number of fixed marks.
    pub fn cardinality(self) -> Result<u64, Refusal> {
        Ok(answer(|reply, len| unsafe { raw::collartug_cardinality(self.fixed, self.values, reply, len) })?[0])
    }

    pub fn last_fixed_mark(self) -> Result<Option<u16>, Refusal> {
        let words = answer(|reply, len| unsafe { raw::collartug_last_fixed_variable(self.fixed, self.values, reply, len) })?;
        Ok((words[0] == 1).then_some(words[1] as u16))
    }

    /// A mark's value, or None where it is unset.
    pub fn get(self, mark: u16) -> Result<Option<bool>, Refusal> {
        let words = answer(|reply, len| unsafe { raw::collartug_get_value(self.fixed, self.values, mark, reply, len) })?;
        Ok((words[0] == 1).then_some(words[1] == 1))
    }

    pub fn has(self, mark: u16) -> Result<bool, Refusal> {
        Ok(answer(|reply, len| unsafe { raw::collartug_has_value(self.fixed, self.values, mark, reply, len) })?[0] == 1)
    }

    /// The clause with a mark set.
    pub fn with(self, mark: u16, value: bool) -> Result<Clause, Refusal> {
        let words = answer(|reply, len| unsafe { raw::collartug_set_value(self.fixed, self.values, mark, value as u64, reply, len) })?;
        Ok(Clause { fixed: words[0], values: words[1] })
    }

    /// The clause with a mark unset.
    pub fn without(self, mark: u16) -> Result<Clause, Refusal> {
        let words = answer(|reply, len| unsafe { raw::collartug_unset_value(self.fixed, self.values, mark, reply, len) })?;
        Ok(Clause { fixed: words[0], values: words[1] })
    }

    /// Whether this clause fixes all that the other fixes, to the same values.
    pub fn extends(self, other: Clause) -> Result<bool, Refusal> {
        let (a, b) = (self, other);
        Ok(answer(|reply, len| unsafe { raw::collartug_extends(a.fixed, a.values, b.fixed, b.values, reply, len) })?[0] == 1)
    }

    /// Whether both are the same clause. Unlike `==` it refuses a malformed one.
    pub fn equals(self, other: Clause) -> Result<bool, Refusal> {
        let (a, b) = (self, other);
        Ok(answer(|reply, len| unsafe { raw::collartug_eq(a.fixed, a.values, b.fixed, b.values, reply, len) })?[0] == 1)
    }
}
