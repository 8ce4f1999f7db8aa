//! Times the builders of the proved library against the oracle, and against BuDDy where it is installed, and then the extractors and the short list
//! on the tables that were built: a command of its own, and no test.
//!   cargo run --release --offline -p differ --bin bench_builders [--each] [--search SECONDS [--kind NUMBER]] [--ours NAME]
//! `--search` looks for slow lists; `--ours` runs our side alone on the lists whose names hold NAME, for a profiler.
//! A ratio is the other side's time by ours: above 1, ours is the quicker one.
mod buddy;
mod corpora;
mod extraction;
mod short;
mod slow;

use biodivine_lib_bdd::BddVariableSet;
use corpora::Case;
use differ::building::{Build, Builder};
use differ::convert::{to_case, to_valuation};
use differ::corpus::MOST_NODES;
use differ::expected_builders::runs;
use differ::proved_builders::call_into;
use differ::timing::{geometric_mean, option, report, run_ours, time, Timed};
use std::hint::black_box;
use std::time::Duration;

/// Each side is timed so many times; the middle time counts.
const TIMES: usize = 11;

/// What a call is lent: made once, cleared before each call.
pub struct Buffers {
    out: Vec<u32>,
    work: Vec<u32>,
    reply: Vec<u64>,
}

impl Buffers {
    fn new() -> Buffers {
        Buffers { out: vec![0; 3 * MOST_NODES], work: vec![0; 12 * MOST_NODES + 192], reply: vec![0; 64] }
    }

    /// With the greatest room, whatever the call's space says.
    fn time(&mut self, call: &Build) -> Duration {
        self.out.fill(0);
        self.work.fill(0);
        time(|| assert_eq!(call_into(&call.with_space(MOST_NODES, 0), &mut self.out, &mut self.work, &mut self.reply), 1))
    }

    /// The number, place and count of the call that was just made.
    fn replied(&self) -> [u64; 3] {
        [self.reply[0], self.reply[1], self.reply[2]]
    }
}

/// The oracle's call, its arguments made beforehand.
fn oracles_call(case: &Case) -> Box<dyn Fn()> {
    let set = BddVariableSet::new_anonymous(case.n);
    let partial: Vec<_> = case.clauses.iter().copied().map(to_valuation).collect();
    let cells: Vec<_> = case.clauses.iter().map(|clause| to_case(case.n, clause.values)).collect();
    match case.builder {
        Builder::Dnf => Box::new(move || drop(black_box(set.mk_dnf(&partial)))),
        Builder::Cnf => Box::new(move || drop(black_box(set.mk_cnf(&partial)))),
        Builder::DnfValuation => Box::new(move || drop(black_box(set.mk_dnf_valuation(&cells)))),
        Builder::CnfValuation => Box::new(move || drop(black_box(set.mk_cnf_valuation(&cells)))),
    }
}

/// One list: the result first, then the times. None where a run of it is over the greatest room.
fn time_case(buffers: &mut Buffers, case: &Case) -> Option<Timed> {
    let words = case.builder.words(&case.clauses);
    let call = Build::whole(case.builder, case.n, &words);
    let wanted = runs(case.builder, case.n, &case.clauses).table?;
    buffers.time(&call);
    assert_eq!(buffers.replied(), [0, 0, wanted.len() as u64 / 3], "{}", case.name);
    assert!(buffers.out[..wanted.len()] == wanted[..], "{} differs from the oracle", case.name);
    let input = format!("{}, {} nodes", case.name, wanted.len() / 3);
    let oracle = oracles_call(case);
    Some(Timed::new(input, TIMES, || buffers.time(&call), || time(&oracle)))
}

/// BuDDy's time by ours, over the lists that both were given.
fn against_buddy(timed: &[(&Case, Timed)]) {
    let ratios: Option<Vec<f64>> = timed.iter().map(|(case, timed)| Some(buddy::time_list(case, TIMES)? / timed.ours)).collect();
    match ratios {
        Some(ratios) => {
            let worst = ratios.iter().copied().fold(f64::INFINITY, f64::min);
            println!("{:<18} mean {:>6.2} worst {worst:>6.2} of {}", "  BuDDy", geometric_mean(ratios.iter().copied()), ratios.len());
        }
        None => println!("{:<18} not installed", "  BuDDy"),
    }
}

fn time_corpus(buffers: &mut Buffers, name: &str, cases: &[Case]) {
    let timed: Vec<(&Case, Timed)> = cases.iter().filter_map(|case| Some((case, time_case(buffers, case)?))).collect();
    let left_out = cases.len() - timed.len();
    if left_out > 0 {
        println!("{name}: {left_out} of {} lists are over room", cases.len());
    }
    against_buddy(&timed);
    report(name, &timed.into_iter().map(|(_, timed)| timed).collect::<Vec<_>>());
}

fn profile(buffers: &mut Buffers, name: &str) {
    let cases = corpora::all().into_iter().flat_map(|(_, cases)| cases).chain([slow::slowest(buffers)]);
    for case in cases.filter(|case| case.name.contains(name)) {
        let words = case.builder.words(&case.clauses);
        let call = Build::whole(case.builder, case.n, &words);
        run_ours(&case.name, || buffers.time(&call));
    }
}

fn main() {
    let mut buffers = Buffers::new();
    if let Some(seconds) = option("--search") {
        let kind = option("--kind").map(|kind| kind.parse().expect("--kind NUMBER"));
        return slow::search(&mut buffers, Duration::from_secs(seconds.parse().expect("--search SECONDS")), kind);
    }
    if let Some(name) = option("--ours") {
        return profile(&mut buffers, &name);
    }
    println!("room {MOST_NODES}; ratio: the oracle's time by ours");
    for (name, cases) in corpora::all() {
        time_corpus(&mut buffers, name, &cases);
        extraction::time_corpus(&cases);
        short::time_corpus(&cases);
    }
    slow::time_slowest(&mut buffers);
    short::time_refusals();
}
