//! post SHEET: the list to post, of the short list and the cnf the one with fewer clauses, as a text that `tools/sheet make` takes.
use collartug::{choose_posting, Cover, Posting, Refusal, Sheet, MOST_CLAUSES, MOST_NODES};
use std::process::ExitCode;

fn post(bytes: &[u8]) -> Result<String, Refusal> {
    let table = Sheet::read(bytes)?.table(MOST_NODES)?;
    let short = table.to_optimized_dnf(MOST_NODES, MOST_CLAUSES)?;
    assert_eq!(table.covers(&short, MOST_NODES)?, Cover::Agrees);
    let cnf = table.to_cnf(MOST_CLAUSES)?;
    let (kind, clauses) = match choose_posting(&short, &cnf) {
        Posting::Dnf(clauses) => ("dnf", clauses),
        Posting::Cnf(clauses) => ("cnf", clauses),
    };
    let n = table.marks();
    let lines = clauses.iter().map(|clause| clause.text(n) + "\n");
    Ok(format!("{kind} {n}\n{}", lines.collect::<String>()))
}

fn main() -> ExitCode {
    let words: Vec<String> = std::env::args().skip(1).collect();
    let [name] = words.as_slice() else {
        eprintln!("usage: post SHEET");
        return ExitCode::from(2);
    };
    match std::fs::read(name).map(|bytes| post(&bytes)) {
        Ok(Ok(text)) => {
            print!("{text}");
            return ExitCode::SUCCESS;
        }
        Ok(Err(refusal)) => eprintln!("post: {name}: {refusal}"),
        Err(error) => eprintln!("post: {name}: {error}"),
    }
    ExitCode::from(2)
}
