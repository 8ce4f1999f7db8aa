//! short SHEET: the short list of what a sheet says, as a text that `tools/sheet make` takes. `-` is standard input.
use collartug::{Sheet, MOST_CLAUSES, MOST_NODES};
use std::io::Read;
use std::process::ExitCode;

fn bytes(name: &str) -> std::io::Result<Vec<u8>> {
    if name != "-" {
        return std::fs::read(name);
    }
    let mut bytes = vec![];
    std::io::stdin().read_to_end(&mut bytes).map(|_| bytes)
}

fn short(name: &str) -> Result<String, String> {
    let bytes = bytes(name).map_err(|error| format!("{name}: {error}"))?;
    let table = Sheet::read(&bytes).and_then(|sheet| sheet.table(MOST_NODES));
    let list = table.and_then(|table| Ok((table.marks(), table.to_optimized_dnf(MOST_NODES, MOST_CLAUSES)?)));
    let (n, clauses) = list.map_err(|refusal| format!("{name}: {refusal}"))?;
    let lines = clauses.iter().map(|clause| clause.text(n) + "\n");
    Ok(format!("dnf {n}\n{}", lines.collect::<String>()))
}

fn main() -> ExitCode {
    let words: Vec<String> = std::env::args().skip(1).collect();
    let [name] = words.as_slice() else {
        eprintln!("usage: short SHEET");
        return ExitCode::from(2);
    };
    match short(name) {
        Ok(text) => {
            print!("{text}");
            ExitCode::SUCCESS
        }
        Err(objection) => {
            eprintln!("short: {objection}");
            ExitCode::from(2)
        }
    }
}
