use crate::{answer, raw, words_of, Clause};

/// The list to post, which is one of the caller's own.
#[derive(Clone, Copy, Debug, PartialEq, Eq)]
pub enum Posting<'a> {
    Dnf(&'a [Clause]),
    Cnf(&'a [Clause]),
}

/// Which of two lists of one table to post: the one with fewer clauses, the DNF on a tie. It is never refused.
///
/// ```
/// use collartug::{choose_posting, Clause, Posting, Table};
/// let list = ["1--", "-1-", "--1"].map(|text| Clause::parse(text).unwrap());
/// let table = Table::from_dnf(3, &list, 64)?;
/// let (dnf, cnf) = (table.to_dnf(1024)?, table.to_cnf(1024)?);
/// assert_eq!((dnf.len(), cnf.len()), (3, 1));
/// assert_eq!(choose_posting(&dnf, &cnf), Posting::Cnf(&cnf));
/// # Ok::<(), collartug::Refusal>(())
/// ```
pub fn choose_posting<'a>(dnf: &'a [Clause], cnf: &'a [Clause]) -> Posting<'a> {
    let (dnf_words, cnf_words) = (words_of(dnf), words_of(cnf));
    let chosen = answer(|reply, len| unsafe {
        raw::collartug_choose_posting(dnf_words.as_ptr(), dnf_words.len(), cnf_words.as_ptr(), cnf_words.len(), reply, len)
    });
    // The library answers how many words the chosen list has; where both have as many, it is the DNF.
    match chosen.expect("the choice is never refused")[0] == dnf_words.len() as u64 {
        true => Posting::Dnf(dnf),
        false => Posting::Cnf(cnf),
    }
}
