//! Safe calls of the proved decision-table library. This crate lends buffers of the right size and takes the reply apart; it is not
//! proved itself. Every call that can be refused answers `Result<_, Refusal>`; docs/USING.md says what each refusal means.
mod clause;
mod posting;
mod raw;
mod refusal;
mod sheet;
mod table;
mod walk;

pub use clause::Clause;
pub use posting::{choose_posting, Posting};
pub use refusal::Refusal;
pub use sheet::Sheet;
pub use table::{Cover, Table};
pub use walk::Walk;

/// The most marks, the most clauses of an input, and the most nodes of a table or room.
pub const MOST_MARKS: u16 = 60;
pub const MOST_CLAUSES: usize = 1024;
pub const MOST_NODES: usize = 4096;

/// A list in the library's words, two a clause.
fn words_of(clauses: &[Clause]) -> Vec<u64> {
    clauses.iter().flat_map(|clause| [clause.fixed, clause.values]).collect()
}

/// The least words of a reply; the answer follows number and place.
const REPLY_WORDS: usize = 64;
const ANSWER: usize = 2;

/// Makes a call with a reply of its own, and answers the words behind number and place.
fn answer(call: impl FnOnce(*mut u64, usize) -> u64) -> Result<[u64; REPLY_WORDS - ANSWER], Refusal> {
    let mut reply = [0; REPLY_WORDS];
    assert_eq!(call(reply.as_mut_ptr(), reply.len()), 1, "the reply has the length that the library wants");
    if reply[0] != 0 {
        return Err(Refusal { number: reply[0] as u8, place: reply[1] });
    }
    let mut words = [0; REPLY_WORDS - ANSWER];
    words.copy_from_slice(&reply[ANSWER..]);
    Ok(words)
}
