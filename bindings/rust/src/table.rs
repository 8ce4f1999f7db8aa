use crate::{answer, raw, words_of, Clause, Refusal, Walk, MOST_CLAUSES, MOST_NODES};

/// A decision table over n marks. Only the library makes one or looks one over, so it is always ordered.
#[derive(Clone, Debug, PartialEq, Eq)]
pub struct Table {
    n: u16,
    words: Vec<u32>,
}

/// What the cover check says of a list: it says what the table says, or this is the first case where they differ.
#[derive(Clone, Copy, Debug, PartialEq, Eq)]
pub enum Cover {
    Agrees,
    Differs(u64),
}

/// A lent buffer as the library takes it: where it starts, and how many words it has.
type Lent<T> = (*mut T, usize);

type Builder = unsafe extern "C" fn(u16, usize, *const u64, usize, usize, *mut u32, usize, *mut u32, usize, *mut u64, usize) -> u64;
type Lister = unsafe extern "C" fn(u16, usize, *const u32, usize, *mut u64, usize, *mut u32, usize, *mut u64, usize) -> u64;
type OnMark = unsafe extern "C" fn(u16, usize, *const u32, usize, u16, usize, *mut u32, usize, *mut u32, usize, *mut u64, usize) -> u64;
#[rustfmt::skip]
type OnTwo = unsafe extern "C" fn(u16, usize, *const u32, usize, usize, *const u32, usize, usize, *mut u32, usize, *mut u32, usize, *mut u64, usize) -> u64;

fn work(largest: usize) -> Vec<u32> {
    vec![0; 12 * largest + 192]
}

/// Lends output and work for a room; the result is the table that the call wrote. Over the limit no buffer is looked at.
fn make(n: u16, room: usize, largest_input: usize, call: impl FnOnce(Lent<u32>, Lent<u32>, Lent<u64>) -> u64) -> Result<Table, Refusal> {
    let lent = room.min(MOST_NODES);
    let (mut out, mut work) = (vec![0; 3 * lent], work(lent.max(largest_input)));
    let (out_lent, work_lent) = ((out.as_mut_ptr(), out.len()), (work.as_mut_ptr(), work.len()));
    let count = answer(|reply, len| call(out_lent, work_lent, (reply, len)))?[0] as usize;
    out.truncate(3 * count);
    Ok(Table { n, words: out })
}

/// The first clauses of a list in the library's words.
fn clauses_of(words: &[u64], count: u64) -> Vec<Clause> {
    words.chunks_exact(2).take(count as usize).map(|pair| Clause { fixed: pair[0], values: pair[1] }).collect()
}

fn build(builder: Builder, n: u16, count: usize, words: &[u64], room: usize) -> Result<Table, Refusal> {
    make(n, room, 0, |out, work, reply| unsafe {
        builder(n, count, words.as_ptr(), words.len(), room, out.0, out.1, work.0, work.1, reply.0, reply.1)
    })
}

impl Table {
    /// The table that says yes where some clause of the list holds.
    pub fn from_dnf(n: u16, clauses: &[Clause], room: usize) -> Result<Table, Refusal> {
        build(raw::collartug_mk_dnf, n, clauses.len(), &words_of(clauses), room)
    }

    /// The table that says yes where every clause of the list has a literal that holds.
    pub fn from_cnf(n: u16, clauses: &[Clause], room: usize) -> Result<Table, Refusal> {
        build(raw::collartug_mk_cnf, n, clauses.len(), &words_of(clauses), room)
    }

    /// The table that says yes at the cases and nowhere else.
    pub fn from_dnf_cases(n: u16, cases: &[u64], room: usize) -> Result<Table, Refusal> {
        build(raw::collartug_mk_dnf_valuation, n, cases.len(), cases, room)
    }

    /// The table that says no at the cases' complements and nowhere else.
    pub fn from_cnf_cases(n: u16, cases: &[u64], room: usize) -> Result<Table, Refusal> {
        build(raw::collartug_mk_cnf_valuation, n, cases.len(), cases, room)
    }

    /// A table of one's own nodes (mark, low, high), looked over first. It stays as it is, reduced or not.
    pub fn from_nodes(n: u16, nodes: &[[u32; 3]]) -> Result<Table, Refusal> {
        let words = nodes.concat();
        answer(|reply, len| unsafe { raw::collartug_inspect(n, nodes.len(), words.as_ptr(), words.len(), reply, len) })?;
        Ok(Table { n, words })
    }

    /// A table that the library has read and looked over.
    pub(crate) fn read(n: u16, count: usize, mut words: Vec<u32>) -> Table {
        words.truncate(3 * count);
        Table { n, words }
    }

    pub fn marks(&self) -> u16 {
        self.n
    }

    pub fn count(&self) -> usize {
        self.words.len() / 3
    }

    /// The nodes (mark, low, high): node 0 says no, node 1 yes, the root is last.
    pub fn nodes(&self) -> impl Iterator<Item = [u32; 3]> + '_ {
        self.words.chunks_exact(3).map(|node| [node[0], node[1], node[2]])
    }

    pub(crate) fn start(&self) -> (*const u32, usize) {
        (self.words.as_ptr(), self.words.len())
    }

    /// What the table says of a case.
    pub fn says(&self, case: u64) -> Result<bool, Refusal> {
        let (nodes, words) = self.start();
        Ok(answer(|reply, len| unsafe { raw::collartug_eval_in(self.n, self.count(), nodes, words, case, reply, len) })?[0] == 1)
    }

    /// The number of cases that get yes.
    pub fn case_count(&self) -> Result<u64, Refusal> {
        let (nodes, words) = self.start();
        let mut work = work(self.count());
        let (start, room) = (work.as_mut_ptr(), work.len());
        Ok(answer(|reply, len| unsafe { raw::collartug_exact_cardinality(self.n, self.count(), nodes, words, start, room, reply, len) })?
            [0])
    }

    /// The marks that the answer depends on: bit i is mark i.
    pub fn support(&self) -> Result<u64, Refusal> {
        let (nodes, words) = self.start();
        let mut work = work(self.count());
        let (start, room) = (work.as_mut_ptr(), work.len());
        Ok(answer(|reply, len| unsafe { raw::collartug_support_set(self.n, self.count(), nodes, words, start, room, reply, len) })?[0])
    }

    /// Whether a DNF list says what the table says.
    pub fn covers(&self, clauses: &[Clause], room: usize) -> Result<Cover, Refusal> {
        let (nodes, words) = self.start();
        let list = words_of(clauses);
        let mut work = work(room.min(MOST_NODES).max(self.count()));
        let (start, lent) = (work.as_mut_ptr(), work.len());
        let (n, count, clause_count) = (self.n, self.count(), clauses.len());
        let found = answer(|reply, len| unsafe {
            let (list, list_len) = (list.as_ptr(), list.len());
            raw::collartug_check_cover(n, count, nodes, words, clause_count, list, list_len, room, start, lent, reply, len)
        })?;
        Ok(if found[0] == 0 { Cover::Agrees } else { Cover::Differs(found[1]) })
    }

    /// The path list, low first: no two of its clauses hold at once. Refused with CLAUSES where it has over `most` of them.
    pub fn to_dnf(&self, most: usize) -> Result<Vec<Clause>, Refusal> {
        self.list(raw::collartug_to_dnf, most)
    }

    /// One clause for each path to no, low first, literals inverted. Refused with CLAUSES where it has over `most` of them.
    pub fn to_cnf(&self, most: usize) -> Result<Vec<Clause>, Refusal> {
        self.list(raw::collartug_to_cnf, most)
    }

    /// Asks for the list without room, which tells its length, then with the right room.
    fn list(&self, lister: Lister, most: usize) -> Result<Vec<Clause>, Refusal> {
        match self.list_into(lister, 0) {
            Err(refusal) if refusal.number == Refusal::CLAUSES && refusal.place <= most as u64 => {
                self.list_into(lister, refusal.place as usize)
            }
            other => other,
        }
    }

    fn list_into(&self, lister: Lister, room: usize) -> Result<Vec<Clause>, Refusal> {
        let (nodes, words) = self.start();
        let (mut out, mut work) = (vec![0; 2 * room], work(self.count()));
        let (list, list_len) = (out.as_mut_ptr(), out.len());
        let (start, lent) = (work.as_mut_ptr(), work.len());
        let count = answer(|reply, len| unsafe { lister(self.n, self.count(), nodes, words, list, list_len, start, lent, reply, len) })?[0];
        Ok(clauses_of(&out, count))
    }

    /// The short list: few, short clauses to post. They may overlap, so it is not for adding. The room is for the tables on the way;
    /// refused with CLAUSES where the list has over `most` clauses.
    ///
    /// ```
    /// use collartug::{Clause, Table};
    /// let list = ["10-", "111"].map(|text| Clause::parse(text).unwrap());
    /// let short = Table::from_dnf(3, &list, 64)?.to_optimized_dnf(64, 1024)?;
    /// assert_eq!(short, ["1-1", "10-"].map(|text| Clause::parse(text).unwrap()));
    /// # Ok::<(), collartug::Refusal>(())
    /// ```
    pub fn to_optimized_dnf(&self, room: usize, most: usize) -> Result<Vec<Clause>, Refusal> {
        let mut lent = most.min(MOST_CLAUSES);
        loop {
            // this refusal does not tell the clauses needed
            match self.short_list(room, lent) {
                Err(refusal) if refusal.number == Refusal::CLAUSES && lent < most => lent = most.min(4 * lent),
                other => return other,
            }
        }
    }

    fn short_list(&self, room: usize, most: usize) -> Result<Vec<Clause>, Refusal> {
        let (nodes, words) = self.start();
        let largest = room.min(MOST_NODES).max(self.count());
        let (mut out, mut work) = (vec![0; 2 * most], vec![0; 24 * largest * (usize::from(self.n) + 2) + 192]);
        let (list, list_len) = (out.as_mut_ptr(), out.len());
        let (start, lent) = (work.as_mut_ptr(), work.len());
        let count = answer(|reply, len| unsafe {
            raw::collartug_to_optimized_dnf(self.n, self.count(), nodes, words, room, list, list_len, start, lent, reply, len)
        })?[0];
        Ok(clauses_of(&out, count))
    }

    /// A walk over the paths to yes, one clause after another. Refused with REDUCED where a node of the table is not needed.
    pub fn walk(&self) -> Result<Walk<'_>, Refusal> {
        Walk::start(self)
    }

    pub fn not(&self, room: usize) -> Result<Table, Refusal> {
        let (nodes, words) = self.start();
        make(self.n, room, self.count(), |out, work, reply| unsafe {
            raw::collartug_not(self.n, self.count(), nodes, words, room, out.0, out.1, work.0, work.1, reply.0, reply.1)
        })
    }

    /// A table over another number of marks is refused with TABLE.
    pub fn and(&self, other: &Table, room: usize) -> Result<Table, Refusal> {
        self.join(raw::collartug_and, other, room)
    }

    /// A table over another number of marks is refused with TABLE.
    pub fn or(&self, other: &Table, room: usize) -> Result<Table, Refusal> {
        self.join(raw::collartug_or, other, room)
    }

    /// This table and not the other. A table over another number of marks is refused with TABLE.
    pub fn and_not(&self, other: &Table, room: usize) -> Result<Table, Refusal> {
        self.join(raw::collartug_and_not, other, room)
    }

    fn join(&self, join: OnTwo, other: &Table, room: usize) -> Result<Table, Refusal> {
        let ((left, left_len), (right, right_len)) = (self.start(), other.start());
        let (left_count, right_count) = (self.count(), other.count());
        make(self.n, room, left_count.max(right_count), |out, work, reply| unsafe {
            let (n, c) = (self.n, right_count);
            join(n, left_count, left, left_len, c, right, right_len, room, out.0, out.1, work.0, work.1, reply.0, reply.1)
        })
    }

    /// Yes where both values of the mark get yes.
    pub fn for_all(&self, mark: u16, room: usize) -> Result<Table, Refusal> {
        self.drop_mark(raw::collartug_var_for_all, mark, room)
    }

    /// Yes where some value of the mark gets yes.
    pub fn exists(&self, mark: u16, room: usize) -> Result<Table, Refusal> {
        self.drop_mark(raw::collartug_var_exists, mark, room)
    }

    fn drop_mark(&self, call: OnMark, mark: u16, room: usize) -> Result<Table, Refusal> {
        let (nodes, words) = self.start();
        make(self.n, room, self.count(), |out, work, reply| unsafe {
            call(self.n, self.count(), nodes, words, mark, room, out.0, out.1, work.0, work.1, reply.0, reply.1)
        })
    }

    /// The table with a mark set to a value.
    pub fn restrict(&self, mark: u16, value: bool, room: usize) -> Result<Table, Refusal> {
        let (nodes, words) = self.start();
        let (n, count, bit) = (self.n, self.count(), value as u64);
        make(n, room, count, |out, work, reply| unsafe {
            raw::collartug_var_restrict(n, count, nodes, words, mark, bit, room, out.0, out.1, work.0, work.1, reply.0, reply.1)
        })
    }
}
