//! Functions of up to six marks as truth tables, and their canonical tables made from the answers alone.
use crate::operation::Operator;
use crate::reading_operators::Found;
use std::collections::BTreeMap;

/// Bit c of `answers` is the answer for case c; bits from 2^n up are 0.
#[derive(Clone, Copy, Debug, PartialEq, Eq)]
pub struct Function {
    pub n: u16,
    pub answers: u64,
}

impl Function {
    /// All functions of n marks, of which there may be few only.
    pub fn all(n: u16) -> Vec<Function> {
        assert!(n <= 4);
        (0..1 << (1 << n)).map(|answers| Function { n, answers }).collect()
    }

    /// The function with these answers; bits from 2^n up are left out.
    pub fn cut(n: u16, answers: u64) -> Function {
        Function { n, answers: answers & (u64::MAX >> (64 - (1 << n))) }
    }

    pub fn says(self, case: u64) -> bool {
        self.answers >> case & 1 == 1
    }

    /// The function with these answers, case by case.
    pub fn from_cases(n: u16, says: impl Fn(u64) -> bool) -> Function {
        Function { n, answers: (0..1 << n).fold(0, |answers, case| answers | u64::from(says(case)) << case) }
    }

    /// The function with a mark's bit set in every case.
    fn with_mark(self, mark: u16, value: bool) -> Function {
        Function::from_cases(self.n, |case| self.says(case & !(1 << mark) | u64::from(value) << mark))
    }

    fn depends_on(self, mark: u16) -> bool {
        (0..1 << self.n).any(|case| self.says(case) != self.says(case ^ 1 << mark))
    }

    /// What the operator comes to, case by case.
    pub fn found(self, operator: Operator, right: Function, mark: u16, value: bool) -> Found {
        let made = |says: &dyn Fn(u64) -> bool| Found::Table(Function::from_cases(self.n, says).canonical());
        let either = |case: u64| [case & !(1 << mark), case | 1 << mark].map(|case| self.says(case));
        match operator {
            Operator::Not => made(&|case| !self.says(case)),
            Operator::And => made(&|case| self.says(case) && right.says(case)),
            Operator::Or => made(&|case| self.says(case) || right.says(case)),
            Operator::AndNot => made(&|case| self.says(case) && !right.says(case)),
            Operator::ForAll => made(&|case| either(case) == [true, true]),
            Operator::Exists => made(&|case| either(case) != [false, false]),
            Operator::Restrict => made(&|case| either(case)[usize::from(value)]),
            Operator::Support => Found::Number((0..self.n).filter(|mark| self.depends_on(*mark)).fold(0, |marks, mark| marks | 1 << mark)),
            Operator::Cardinality => Found::Number((0..1 << self.n).filter(|case| self.says(*case)).count() as u64),
        }
    }

    /// The canonical table: one node for each function that is left when the first marks are set, low child, high child, node.
    pub fn canonical(self) -> Vec<u32> {
        let n = u32::from(self.n);
        let (mut words, mut numbers) = (vec![n, 0, 0, n, 1, 1], BTreeMap::new());
        let root = self.number(&mut words, &mut numbers);
        words.truncate(if root == 0 { 3 } else { words.len() });
        words
    }

    /// Functions are told apart by their answers: no node is compared with another.
    fn number(self, words: &mut Vec<u32>, numbers: &mut BTreeMap<u64, u32>) -> u32 {
        let Some(mark) = (0..self.n).find(|mark| self.depends_on(*mark)) else { return u32::from(self.says(0)) };
        if let Some(number) = numbers.get(&self.answers) {
            return *number;
        }
        let low = self.with_mark(mark, false).number(words, numbers);
        let high = self.with_mark(mark, true).number(words, numbers);
        let own = words.len() as u32 / 3;
        words.extend([u32::from(mark), low, high]);
        numbers.insert(self.answers, own);
        own
    }

    /// The function as a tree with a node for each choice of the first marks: ordered, and about as unreduced as can be.
    pub fn tree(self) -> Vec<u32> {
        let n = u32::from(self.n);
        let mut words = vec![n, 0, 0, n, 1, 1];
        let root = self.branch(0, 0, &mut words);
        words.truncate(if root == 0 { 3 } else { words.len() });
        words
    }

    /// The branch in which the marks below `mark` are set as in `case`.
    fn branch(self, mark: u16, case: u64, words: &mut Vec<u32>) -> u32 {
        if mark == self.n {
            return u32::from(self.says(case));
        }
        let low = self.branch(mark + 1, case, words);
        let high = self.branch(mark + 1, case | 1 << mark, words);
        words.extend([u32::from(mark), low, high]);
        words.len() as u32 / 3 - 1
    }
}
