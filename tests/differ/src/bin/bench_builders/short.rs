//! The short list on the tables of the corpora, with two rooms.
use crate::corpora::Case;
use biodivine_lib_bdd::Bdd;
use differ::convert::of_valuation;
use differ::corpus::{at_least, parity_of_all, MOST_NODES};
use differ::expected_builders::built;
use differ::proved_short::call_into;
use differ::shortening::Shortening;
use differ::timing::{report, time, Timed};
use std::collections::BTreeSet;
use std::hint::black_box;
use std::time::{Duration, Instant};

/// Each side is timed so many times; the middle time counts.
const TIMES: usize = 5;
const ROOMS: [usize; 2] = [512, MOST_NODES];
/// Tables for which the oracle takes longer are left out.
const LONGEST: Duration = Duration::from_millis(500);

/// The oracle's list as words, if it has one in time.
fn listed(bdd: &Bdd) -> Option<Vec<u64>> {
    let start = Instant::now();
    let in_time = |_: &[_]| if start.elapsed() < LONGEST { Ok(()) } else { Err(()) };
    let list = bdd._to_optimized_dnf(true, &in_time).ok()?;
    Some(list.iter().map(of_valuation).flat_map(|clause| [clause.fixed, clause.values]).collect())
}

/// One table: the list first, then the times. None where a table that the rule calls for is over room.
fn time_table(name: &str, n: u16, bdd: &Bdd, list: &[u64], room: usize) -> Option<Timed> {
    let nodes = bdd.renumbered();
    let call = Shortening::whole(n, &nodes, room, list.len().max(2048), 0);
    let (mut out, mut work, mut reply) = (vec![0; call.out], vec![0; call.work], vec![0; 64]);
    let mut ours = || time(|| assert_eq!(call_into(&call, &mut out, &mut work, &mut reply), 1));
    ours();
    let input = format!("{name}, {} clauses", list.len() / 2);
    let timed = Timed::new(input, TIMES, ours, || time(|| drop(black_box(bdd.to_optimized_dnf()))));
    if reply[0] == differ::answer::NODES {
        return None;
    }
    assert!(reply[..3] == [0, 0, list.len() as u64 / 2] && out[..list.len()] == *list, "{name} differs from the oracle");
    Some(timed)
}

/// Each table once, though several lists of the corpus come to it.
pub fn time_corpus(cases: &[Case]) {
    let (mut seen, mut tables) = (BTreeSet::new(), vec![]);
    for case in cases {
        let bdd = built(case.builder, case.n, &case.clauses);
        if bdd.size() <= MOST_NODES && seen.insert(bdd.renumbered()) {
            if let Some(list) = listed(&bdd) {
                tables.push((case, bdd, list));
            }
        }
    }
    for room in ROOMS {
        let name = |case: &Case, bdd: &Bdd| format!("{} nodes, {}", bdd.size(), case.name);
        let fitting = tables.iter().filter(|(_, bdd, _)| bdd.size() <= room);
        let timed: Vec<Timed> = fitting.filter_map(|(case, bdd, list)| time_table(&name(case, bdd), case.n, bdd, list, room)).collect();
        if !timed.is_empty() {
            report(&format!("  short, room {room}"), &timed);
        }
    }
}

/// Lists far longer than the output: the rule is followed to its end all the same, and each must be refused in so long.
pub fn time_refusals() {
    let refused = [("parity of 60 marks", parity_of_all(60), 1), ("at least 30 of 60 marks", at_least(60, 30), 10)];
    for (name, bdd, seconds) in refused {
        let nodes = bdd.renumbered();
        let call = Shortening::whole(60, &nodes, MOST_NODES, 2048, 0);
        let (mut out, mut work, mut reply) = (vec![0; call.out], vec![0; call.work], vec![0; 64]);
        let taken = time(|| assert_eq!(call_into(&call, &mut out, &mut work, &mut reply), 1));
        assert_eq!(reply[0], differ::answer::CLAUSES, "{name}");
        let verdict = if taken <= Duration::from_secs(seconds) { "within" } else { "OVER" };
        println!("short list of {name}, refused: {:.2} s ({verdict} {seconds} s)", taken.as_secs_f64());
    }
}
