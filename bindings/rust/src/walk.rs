use crate::{answer, raw, Clause, Refusal, Table};

/// A walk over the paths of a table, which it keeps hold of: clause after clause of [`Table::to_dnf`], and then nothing for ever.
/// No list is made. The library steps anew from the start each time, so a walk is for the first few clauses, and `to_dnf` for all.
///
/// ```
/// use collartug::{Clause, Refusal, Table};
/// let list = ["10-", "1-1"].map(|text| Clause::parse(text).unwrap());
/// let table = Table::from_dnf(3, &list, 64)?;
/// let paths: Vec<String> = table.walk()?.map(|clause| clause.text(3)).collect();
/// assert_eq!(paths, ["10-", "111"]);
///
/// let unreduced = Table::from_nodes(1, &[[1, 0, 0], [1, 1, 1], [0, 1, 1]])?;
/// assert_eq!(unreduced.walk().unwrap_err(), Refusal { number: Refusal::REDUCED, place: 2 });
/// # Ok::<(), Refusal>(())
/// ```
#[derive(Clone, Debug)]
pub struct Walk<'a> {
    table: &'a Table,
    /// The number of the next step; none once the walk has ended.
    next: Option<u32>,
}

impl<'a> Walk<'a> {
    pub(crate) fn start(table: &'a Table) -> Result<Walk<'a>, Refusal> {
        let (nodes, words) = table.start();
        answer(|reply, len| unsafe { raw::collartug_walk_check(table.marks(), table.count(), nodes, words, reply, len) })?;
        Ok(Walk { table, next: Some(0) })
    }
}

impl Iterator for Walk<'_> {
    type Item = Clause;

    fn next(&mut self) -> Option<Clause> {
        let (k, (nodes, words)) = (self.next?, self.table.start());
        let step =
            answer(|reply, len| unsafe { raw::collartug_kth_step(self.table.marks(), self.table.count(), nodes, words, k, reply, len) });
        let [went_on, fixed, values, ..] = step.expect("a step is never refused");
        self.next = (went_on == 1).then(|| k.checked_add(1).expect("2^32 steps, each from the start, take longer than anyone waits"));
        self.next.map(|_| Clause { fixed, values })
    }
}

/// Ended is for ever.
impl std::iter::FusedIterator for Walk<'_> {}
