//! What a call should answer, what it left behind, and the one comparison of the two.
use crate::lent::{Buffer, Lent};

pub const LIMIT: u64 = 1;
pub const SHORT: u64 = 2;
pub const VARIABLE: u64 = 3;
pub const CLAUSE: u64 = 4;
pub const TABLE: u64 = 5;
pub const REDUCED: u64 = 6;
pub const NODES: u64 = 7;
pub const CLAUSES: u64 = 8;
pub const SHEET: u64 = 9;

/// The fewest words of a reply buffer that a call serves.
pub const LEAST_REPLY: usize = 64;

/// What the specification wants of a call.
#[derive(Clone, Debug, PartialEq, Eq)]
pub enum Answer {
    Refused {
        number: u64,
        place: u64,
    },
    /// `outs`: for each lent buffer, in the order of the arguments, the words it starts with; none for a work buffer.
    Given {
        values: Vec<u64>,
        outs: Vec<Vec<u64>>,
    },
}

impl Answer {
    pub fn refused(number: u64, place: u64) -> Answer {
        Answer::Refused { number, place }
    }

    /// An answer of an entry without lent buffers.
    pub fn given(values: Vec<u64>) -> Answer {
        Answer::Given { values, outs: Vec::new() }
    }

    /// Number, place and values: the reply up to its zeros.
    pub fn reply(&self) -> Vec<u64> {
        match self {
            Answer::Refused { number, place } => vec![*number, *place],
            Answer::Given { values, .. } => [0, 0].iter().chain(values).copied().collect(),
        }
    }
}

/// What a call left behind: the number it returned, the whole reply buffer, and the whole of each other lent buffer.
#[derive(Clone, Debug)]
pub struct Outcome {
    pub returned: u64,
    pub reply: Lent<u64>,
    pub lent: Vec<Buffer>,
}

/// Every word that the call could touch is as the answer wants it.
pub fn compare(want: &Answer, got: &Outcome) -> Result<(), String> {
    if got.returned != 1 {
        return Err(format!("it returned {}, not 1", got.returned));
    }
    got.reply.holds(&want.reply()).map_err(|what| format!("reply: {what}"))?;
    if let Answer::Given { outs, .. } = want {
        if outs.len() != got.lent.len() {
            return Err(format!("{} buffers are wanted, {} were lent", outs.len(), got.lent.len()));
        }
    }
    for (k, buffer) in got.lent.iter().enumerate() {
        compare_buffer(want, k, buffer).map_err(|what| format!("lent buffer {k}: {what}"))?;
    }
    Ok(())
}

/// NODES and CLAUSES zero a buffer, other refusals leave it alone, an answer writes it to its end.
fn compare_buffer(want: &Answer, k: usize, buffer: &Buffer) -> Result<(), String> {
    match want {
        Answer::Refused { number: NODES | CLAUSES, .. } => buffer.holds(&[]),
        Answer::Refused { .. } => buffer.untouched(),
        Answer::Given { outs, .. } => buffer.holds(&outs[k]),
    }
}

/// A call with a reply buffer under 64 words returns 0 and touches nothing.
pub fn compare_unserved(got: &Outcome) -> Result<(), String> {
    if got.returned != 0 {
        return Err(format!("it returned {}, not 0", got.returned));
    }
    got.reply.untouched().map_err(|what| format!("reply: {what}"))?;
    for (k, buffer) in got.lent.iter().enumerate() {
        buffer.untouched().map_err(|what| format!("lent buffer {k}: {what}"))?;
    }
    Ok(())
}
