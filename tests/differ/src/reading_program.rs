//! The program read a second time in plain Rust: all that it prints of an input. Tables and lists are the oracle's.
use crate::answer::{Answer, CLAUSES, NODES, SHEET};
use crate::building::Builder;
use crate::expected_builders::{built, runs_within};
use crate::expected_extractors::listed;
use crate::extracting::Extractor;
use crate::reading::Valuation;
use crate::reading_extractors::paths;
use crate::reading_sheet::{self, Header};

/// The longest input; the nodes and the clauses of each list that there is room for.
pub const MOST_BYTES: usize = 65_536;
pub const ROOM: usize = 1024;

/// What the program does, one after another.
#[derive(Clone, Copy, Debug, PartialEq, Eq, PartialOrd, Ord)]
pub enum Step {
    Reading,
    Build,
    Dnf,
    Cnf,
}

/// What an input comes to.
#[derive(Clone, Debug, PartialEq, Eq)]
pub enum Milled {
    Refused { step: Step, number: u64, place: u64 },
    Listed { n: u16, nodes: usize, dnf: Vec<Valuation>, cnf: Vec<Valuation> },
}

fn refused(step: Step, number: u64, place: u64) -> Milled {
    Milled::Refused { step, number, place }
}

/// The kind's builder, the marks and the clauses of a sheet that the program takes.
fn read(bytes: &[u8]) -> Result<(Builder, u16, Vec<Valuation>), Milled> {
    let is_table = Header::of(bytes).is_some_and(|header| header.kind == reading_sheet::NODES);
    if bytes.len() > MOST_BYTES || is_table {
        return Err(refused(Step::Reading, SHEET, 0));
    }
    match reading_sheet::answer(bytes, 2 * ROOM, 0) {
        Answer::Refused { number, place } => Err(refused(Step::Reading, number, place)),
        Answer::Given { values, outs } => {
            let clauses = outs[0].chunks(2).map(|clause| Valuation { fixed: clause[0], values: clause[1] }).collect();
            Ok((if values[0] == reading_sheet::DNF { Builder::Dnf } else { Builder::Cnf }, values[1] as u16, clauses))
        }
    }
}

/// The first refusal, of reading, build, DNF, CNF in turn; or both lists.
pub fn milled(bytes: &[u8]) -> Milled {
    let (builder, n, clauses) = match read(bytes) {
        Ok(read) => read,
        Err(refused) => return refused,
    };
    let runs = runs_within(ROOM, builder, n, &clauses);
    let Some(table) = runs.table else { return refused(Step::Build, NODES, runs.sizes.len() as u64 - 1) };
    let nodes = table.len() / 3;
    for (step, extractor) in [(Step::Dnf, Extractor::Dnf), (Step::Cnf, Extractor::Cnf)] {
        let paths = paths(extractor, nodes, &table);
        if paths > ROOM as u64 {
            return refused(step, CLAUSES, paths);
        }
    }
    let bdd = built(builder, n, &clauses);
    Milled::Listed { n, nodes, dnf: listed(Extractor::Dnf, &bdd), cnf: listed(Extractor::Cnf, &bdd) }
}

impl Milled {
    /// The whole output.
    pub fn text(&self) -> String {
        match self {
            Milled::Refused { number, place, .. } => format!("refused {number} {place}\n"),
            Milled::Listed { n, nodes, dnf, cnf } => {
                let lines = |list: &[Valuation]| list.iter().map(|clause| line(*n, *clause)).collect::<String>();
                format!("vars {n}\nnodes {nodes}\ndnf {}\n{}cnf {}\n{}", dnf.len(), lines(dnf), cnf.len(), lines(cnf))
            }
        }
    }
}

fn line(n: u16, clause: Valuation) -> String {
    let cell = |mark: u16| match (clause.fixed >> mark & 1, clause.values >> mark & 1) {
        (0, _) => '-',
        (_, 0) => '0',
        _ => '1',
    };
    (0..n).map(cell).chain(['\n']).collect()
}
