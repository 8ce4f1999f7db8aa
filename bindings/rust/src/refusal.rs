use std::fmt;

/// Why a call was refused, and where.
#[derive(Clone, Copy, Debug, PartialEq, Eq)]
pub struct Refusal {
    pub number: u8,
    pub place: u64,
}

impl Refusal {
    pub const LIMIT: u8 = 1;
    pub const SHORT: u8 = 2;
    pub const VARIABLE: u8 = 3;
    pub const CLAUSE: u8 = 4;
    pub const TABLE: u8 = 5;
    pub const REDUCED: u8 = 6;
    pub const NODES: u8 = 7;
    pub const CLAUSES: u8 = 8;
    pub const SHEET: u8 = 9;

    pub fn name(self) -> &'static str {
        const NAMES: [&str; 10] = ["none", "LIMIT", "SHORT", "VARIABLE", "CLAUSE", "TABLE", "REDUCED", "NODES", "CLAUSES", "SHEET"];
        NAMES.get(self.number as usize).copied().unwrap_or("unknown")
    }
}

impl fmt::Display for Refusal {
    fn fmt(&self, f: &mut fmt::Formatter) -> fmt::Result {
        write!(f, "refused {} {} ({})", self.number, self.place, self.name())
    }
}

impl std::error::Error for Refusal {}
