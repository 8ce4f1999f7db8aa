//! Sheets to try, whole and damaged.
use crate::random::Random;
use crate::reading::Valuation;
use crate::reading_sheet::{Header, HEADER_BYTES, NODES};

const HEADER_WORDS: usize = HEADER_BYTES / 4;
const TOTAL: usize = 6;
/// Words that a header may hold, or that look like them once they are cut.
const WORDS: [u32; 22] = [0, 1, 2, 3, 4, 15, 16, 31, 32, 33, 48, 60, 61, 64, 256, 1024, 1025, 4096, 4097, 65_536, 1 << 28, u32::MAX];

/// A sheet of a list.
pub fn list_sheet(kind: u64, n: u16, clauses: &[Valuation]) -> Vec<u8> {
    let count = clauses.len() as u64;
    let total = 32 + 16 * count;
    let header = Header { version: 1, n: n.into(), clause_count: count, clause_offset: 32, node_count: 0, node_offset: 0, total, kind };
    let section = clauses.iter().flat_map(|clause| [clause.fixed.to_le_bytes(), clause.values.to_le_bytes()].concat());
    header.bytes().into_iter().chain(section).collect()
}

/// A sheet of a table.
pub fn table_sheet(n: u16, nodes: &[u32]) -> Vec<u8> {
    let count = nodes.len() as u64 / 3;
    let total = 32 + 12 * count;
    let header =
        Header { version: 1, n: n.into(), clause_count: 0, clause_offset: 0, node_count: count, node_offset: 32, total, kind: NODES };
    header.bytes().into_iter().chain(nodes.iter().flat_map(|word| word.to_le_bytes())).collect()
}

pub fn replace_word(sheet: &[u8], at: usize, word: u32) -> Vec<u8> {
    let mut changed = sheet.to_vec();
    changed[4 * at..4 * at + 4].copy_from_slice(&word.to_le_bytes());
    changed
}

/// Each word of the header replaced by words near it and far from it; with the other words left, and with the total set to fit.
pub fn damaged_headers(sheet: &[u8]) -> Vec<Vec<u8>> {
    let mut damaged = vec![];
    for at in 0..HEADER_WORDS {
        let old = u32::from_le_bytes(sheet[4 * at..4 * at + 4].try_into().unwrap());
        for word in WORDS.into_iter().chain([old.wrapping_add(1), old.wrapping_sub(1), old << 8, old | 1 << 16, old.swap_bytes()]) {
            let changed = replace_word(sheet, at, word);
            damaged.push(replace_word(&changed, TOTAL, changed.len() as u32));
            damaged.push(changed);
        }
    }
    damaged
}

/// A byte or two changed, more often in the section than in the header.
pub fn changed_bytes(random: &mut Random, sheet: &[u8]) -> Vec<u8> {
    let mut changed = sheet.to_vec();
    for _ in 0..1 + random.below(2) {
        let section = changed.len() - HEADER_BYTES;
        let at = if section == 0 || random.once_in(4) { random.below(changed.len()) } else { HEADER_BYTES + random.below(section) };
        changed[at] = random.pick(&[0, 1, 255, changed[at] ^ 1, changed[at] ^ 128, changed[at].wrapping_add(1)]);
    }
    changed
}
