//! cover WANTED POSTED: does the posted list say what the wanted one says? Both are sheets; the posted one is a dnf list.
use collartug::{Clause, Cover, Refusal, Sheet};
use std::process::ExitCode;

const ROOM: usize = 1024;

fn read(name: &str) -> Result<Sheet, String> {
    let bytes = std::fs::read(name).map_err(|error| format!("{name}: {error}"))?;
    Sheet::read(&bytes).map_err(|refusal| format!("{name}: {refusal}"))
}

fn compare(wanted: &str, posted: &str) -> Result<bool, String> {
    let said = |name: &str, refusal: Refusal| format!("{name}: {refusal}");
    let table = read(wanted)?.table(ROOM).map_err(|refusal| said(wanted, refusal))?;
    let Sheet::Dnf(n, clauses) = read(posted)? else {
        return Err(format!("{posted}: not a dnf list"));
    };
    if n != table.marks() {
        return Err(format!("{wanted} has {} marks, {posted} has {n}", table.marks()));
    }
    let cases = table.case_count().map_err(|refusal| said(wanted, refusal))?;
    println!("{} nodes, yes in {cases} of {} cases", table.count(), 1u64 << n);
    match table.covers(&clauses, ROOM).map_err(|refusal| said(posted, refusal))? {
        Cover::Agrees => {
            println!("agrees: {posted} says what {wanted} says");
            Ok(true)
        }
        Cover::Differs(case) => {
            let says = if table.says(case) == Ok(true) { "mill, the posted list leave" } else { "leave, the posted list mill" };
            println!("differs at {}: the table says {says}", Clause { fixed: u64::MAX, values: case }.text(n));
            Ok(false)
        }
    }
}

fn main() -> ExitCode {
    let words: Vec<String> = std::env::args().skip(1).collect();
    let [wanted, posted] = words.as_slice() else {
        eprintln!("usage: cover WANTED POSTED, two sheets");
        return ExitCode::from(2);
    };
    match compare(wanted, posted) {
        Ok(agrees) => ExitCode::from(!agrees as u8),
        Err(objection) => {
            eprintln!("cover: {objection}");
            ExitCode::from(2)
        }
    }
}
