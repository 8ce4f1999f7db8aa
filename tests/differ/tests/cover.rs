//! The cover check against truth tables and against the oracle, and its refusals against the specification's words.
use biodivine_lib_bdd::Bdd;
use differ::answer::{compare, compare_unserved, Answer, CLAUSE, LEAST_REPLY, LIMIT, NODES, SHORT, TABLE};
use differ::building::Builder;
use differ::copies::forms;
use differ::corpus::{unreduced, MOST_NODES};
use differ::covering::Cover;
use differ::expected_builders::{built, runs, runs_for};
use differ::expected_cover::{first_difference, first_difference_for};
use differ::lists::{cell, holds, large_list, lists_of, rooms, shuffle, some_clauses, well_formed, Canonical};
use differ::operation::Table;
use differ::proved::Room;
use differ::proved_cover::call;
use differ::random::Random;
use differ::reading::{says, Valuation};
use differ::reading_builders::Runs;
use differ::reading_cover::answer;
use differ::run::{Run, Shares};
use differ::spoiled_covers::OwnedCover;
use differ::truth::Function;
use differ::wrong::objects_to_alterations;

const ENTRY: &str = "check_cover";
/// What the runs must reach together; a large call has 30 or more marks and 100 or more clauses.
const SHARES: Shares = Shares { calls: 500_000, large: 15_000, refused: 50_000, entries: 1 };
const MANY_MARKS: u16 = 30;
const MANY_CLAUSES: usize = 100;
const MOST_CLAUSES: usize = 1024;

fn judge(run: &mut Run, cover: &Cover, runs: impl FnOnce() -> Runs, first_difference: impl FnOnce() -> Option<u64>) -> Answer {
    let want = answer(cover, runs, first_difference);
    let got = call(run.tally.room(), cover);
    run.judge(ENTRY, &want, &got, is_large(cover, &want), || format!("{cover:?}"));
    want
}

/// Only calls that got past inspection count.
fn is_large(cover: &Cover, want: &Answer) -> bool {
    let past_inspection = matches!(want, Answer::Given { .. } | Answer::Refused { number: NODES, .. });
    past_inspection && cover.n >= MANY_MARKS && cover.clause_count >= MANY_CLAUSES
}

// ---- truth tables ----

/// The cases of n marks in the order of the specification: mark 0 first, 0 before 1.
fn in_order(n: u16) -> Vec<u64> {
    let mut cases: Vec<u64> = (0..1 << n).collect();
    cases.sort_by_key(|case| (0..n).map(|mark| case >> mark & 1).collect::<Vec<_>>());
    cases
}

/// Every function of n marks, as its canonical table and as a tree, against every list of up to so many clauses.
fn every_pair(run: &mut Run, random: &mut Random, n: u16, most: usize, every_room: bool) {
    let (mut canonical, order) = (Canonical::default(), in_order(n));
    let tables: Vec<(Function, Vec<u32>, Vec<u32>)> = Function::all(n).into_iter().map(|f| (f, f.canonical(), f.tree())).collect();
    for list in (0..=most).flat_map(|many| lists_of(&well_formed(n), many)) {
        let (words, runs) = (Builder::Dnf.words(&list), canonical.runs(Builder::Dnf, n, &list));
        let said = Function::from_cases(n, |case| holds(Builder::Dnf, &list, case));
        for (function, table, tree) in &tables {
            let difference = order.iter().copied().find(|case| function.says(*case) != said.says(*case));
            let rooms = if every_room { (2..=runs.need() + 1).collect() } else { vec![runs.need(), 2 + random.below(6)] };
            for room in rooms {
                let nodes = if random.coin() { table } else { tree };
                judge(run, &Cover::whole(n, nodes, &words).with_space(room, room % 3), || runs.clone(), || difference);
            }
        }
    }
}

fn small_run() -> Run {
    let (mut run, random) = (Run::default(), &mut Random::new(61));
    for (n, most) in [(0, 3), (1, 4), (2, 3)] {
        every_pair(&mut run, random, n, most, true);
    }
    every_pair(&mut run, random, 3, 1, true);
    // of the pairs of clauses of three marks, a part
    let (n, order) = (3, in_order(3));
    let (mut canonical, lists) = (Canonical::default(), lists_of(&well_formed(n), 2));
    for _ in 0..60_000 {
        let (list, function) = (&lists[random.below(lists.len())], Function::cut(n, random.word()));
        let (words, runs) = (Builder::Dnf.words(list), canonical.runs(Builder::Dnf, n, list));
        let difference = order.iter().copied().find(|case| function.says(*case) != holds(Builder::Dnf, list, *case));
        let nodes = if random.coin() { function.canonical() } else { function.tree() };
        judge(&mut run, &Cover::whole(n, &nodes, &words).with_space(2 + random.below(7), 0), || runs.clone(), || difference);
    }
    run
}

// ---- the oracle ----

/// Tables to hold against a list: its own, its own but for a few cases or a cube, that of a part of it, and another list's.
fn tables(random: &mut Random, n: u16, list: &[Valuation], own: &Bdd) -> Vec<Bdd> {
    let one = |clause: Valuation| built(Builder::Dnf, n, &[clause]);
    let mut made = vec![own.clone(), own.xor(&one(cell(n, random.word())))];
    made.push(made[1].xor(&one(cell(n, random.word()))));
    if !list.is_empty() {
        let clause = random.pick(list);
        made.push(own.xor(&one(cell(n, clause.values | random.word() & !clause.fixed))));
        made.push(own.and_not(&one(random.pick(list))));
        let without = random.below(list.len());
        made.push(built(Builder::Dnf, n, &[&list[..without], &list[without + 1..]].concat()));
    }
    made.push(built(Builder::Dnf, n, &some_clauses(random, n)));
    made.retain(|table| table.size() <= MOST_NODES);
    made
}

/// The oracle's first difference, and the two sides' own words on it and on the cases before it that differ from it least.
fn oracles(list: &[Valuation], own: &Bdd, table: &Bdd) -> Option<u64> {
    let difference = first_difference(own, table);
    let (words, count) = (table.renumbered(), table.size());
    let differ = |case: u64| says(count, &words, case) != holds(Builder::Dnf, list, case);
    if let Some(case) = difference {
        assert!(differ(case), "the oracle is wrong about {case:x}");
        let earlier = (0..own.num_vars()).filter(|mark| case >> mark & 1 == 1).map(|mark| case & ((1 << mark) - 1));
        earlier.for_each(|case| assert!(!differ(case), "the oracle missed {case:x}"));
    }
    difference
}

/// One list against tables near it and far from it, in every room that matters.
fn check_list(run: &mut Run, random: &mut Random, n: u16, list: &[Valuation]) {
    let (words, runs) = (Builder::Dnf.words(list), runs(Builder::Dnf, n, list));
    let Some(_) = &runs.table else { return check_over_every_room(run, n, list, &runs) };
    let own = built(Builder::Dnf, n, list);
    for table in tables(random, n, list, &own) {
        let (difference, forms) = (oracles(list, &own, &table), forms(random, &table));
        for room in rooms(random, &runs) {
            let nodes = &forms[random.below(forms.len())];
            let cover = Cover::whole(n, nodes, &words).with_space(room, random.below(9));
            judge(run, &cover, || runs.clone(), || difference);
            if random.once_in(5) {
                check_spoiled(run, random, &cover);
            }
        }
    }
}

/// A list with a run that has no room at all.
fn check_over_every_room(run: &mut Run, n: u16, list: &[Valuation], runs: &Runs) {
    let (words, nodes) = (Builder::Dnf.words(list), [u32::from(n), 0, 0]);
    for room in [2, runs.sizes[runs.sizes.len() - 2].max(2), MOST_NODES] {
        judge(run, &Cover::whole(n, &nodes, &words).with_space(room, 0), || runs.clone(), || panic!("it has no room"));
    }
}

/// Where nothing is refused after all, the oracle answers for the words as they are.
fn check_spoiled(run: &mut Run, random: &mut Random, good: &Cover) {
    let mut spoiled = OwnedCover::new(good);
    spoiled.spoil(random);
    let cover = spoiled.call();
    judge(run, &cover, || runs_for(&cover.build()), || first_difference_for(&cover));
}

fn random_run() -> Run {
    let (mut run, random) = (Run::default(), &mut Random::new(62));
    for n in 0..=60 {
        for _ in 0..RANDOM_LISTS {
            let list = some_clauses(random, n);
            check_list(&mut run, random, n, &list);
        }
    }
    run
}
const RANDOM_LISTS: usize = 180;

fn large_run() -> Run {
    let (mut run, random) = (Run::default(), &mut Random::new(63));
    limits(&mut run, random);
    unreduced_tables(&mut run, random);
    for kind in 0..LARGE_LISTS {
        let (n, mut list) = large_list(random, kind);
        if random.coin() {
            shuffle(random, &mut list);
        }
        check_list(&mut run, random, n, &list);
    }
    run
}
const LARGE_LISTS: usize = 500;

/// Tables that nobody reduced, up to the greatest, against a few clauses.
fn unreduced_tables(run: &mut Run, random: &mut Random) {
    for round in 0..600 {
        let n = 1 + round % 60;
        let count = if round % 50 == 0 { MOST_NODES } else { 3 + random.below(60) };
        let (nodes, list) = (unreduced(random, n, count), some_clauses(random, n));
        let words = Builder::Dnf.words(&list);
        let cover = Cover::whole(n, &nodes, &words);
        let (runs, difference) = (runs_for(&cover.build()), first_difference_for(&cover));
        for room in rooms(random, &runs) {
            judge(run, &cover.with_space(room, 0), || runs.clone(), || difference);
        }
    }
}

/// Numbers of marks, counts and rooms at their limits, with every length of a slice that matters.
fn limits(run: &mut Run, random: &mut Random) {
    const COUNTS: [usize; 8] = [0, 1, 2, 3, 4096, 4097, 65_537, usize::MAX / 3 + 2];
    const LENGTHS: [usize; 7] = [0, 1, 1023, 1024, 1025, 65_537, usize::MAX / 2 + 2];
    const ROOMS: [usize; 7] = [0, 1, 2, 4096, 4097, 65_538, usize::MAX / 12 + 1];
    for n in [0, 1, 59, 60, 61, 64, 65_535] {
        let (nodes, list) = (unreduced(random, n.min(60), MOST_NODES + 1), vec![0; 2 * MOST_CLAUSES + 2]);
        for (count, length) in COUNTS.into_iter().flat_map(|count| LENGTHS.map(|length| (count, length))) {
            for room in ROOMS {
                let short = [(); 3].map(|()| usize::from(random.once_in(10)));
                let needed = 3 * count.min(MOST_NODES + 1);
                let nodes = &nodes[..needed.saturating_sub(short[0]).min(nodes.len())];
                let clauses = &list[..(2 * length.min(MOST_CLAUSES + 1)).saturating_sub(short[1])];
                let work = 12 * room.max(count).min(MOST_NODES + 1) + 192 - short[2];
                let cover = Cover { n, table: Table { count, nodes }, clause_count: length, clauses, room, work };
                judge(run, &cover, || runs_for(&cover.build()), || first_difference_for(&cover));
            }
        }
    }
}

#[test]
fn the_cover_check_is_the_oracles() {
    let other = std::thread::spawn(large_run);
    let (mut run, random) = (small_run(), random_run());
    run.absorb(random);
    run.absorb(other.join().expect("a call of the other half differs"));
    run.finish("the cover check", SHARES);
}

// ---- order of refusals, replies ----

/// What can be wrong with a call, each by itself.
#[derive(Clone, Copy, Debug)]
struct Wrong {
    limit: bool,
    short: bool,
    clause: bool,
    table: bool,
    nodes: bool,
}

impl Wrong {
    fn all() -> Vec<Wrong> {
        let bit = |word: u32, k: u32| word >> k & 1 == 1;
        let wrong = |w| Wrong { limit: bit(w, 0), short: bit(w, 1), clause: bit(w, 2), table: bit(w, 3), nodes: bit(w, 4) };
        (0..32).map(wrong).collect()
    }

    /// The number and place that the specification gives, or 0 where the call is answered.
    fn refusal(self) -> (u64, u64) {
        match self {
            Wrong { limit: true, .. } => (LIMIT, 0),
            Wrong { short: true, .. } => (SHORT, 0),
            Wrong { clause: true, .. } => (CLAUSE, 1),
            Wrong { table: true, .. } => (TABLE, 3),
            Wrong { nodes: true, .. } => (NODES, 1),
            _ => (0, 0),
        }
    }

    /// Both marks, as a table and as a list, the latter twice.
    fn call(self) -> OwnedCover {
        let nodes = [2, 0, 0, 2, 1, 1, 1, 0, 1, if self.table { 1 } else { 0 }, 0, 2];
        let clauses = [3, 3, 3, if self.clause { 7 } else { 3 }];
        let cover = Cover::whole(if self.limit { 61 } else { 2 }, &nodes, &clauses).with_space(if self.nodes { 3 } else { 9 }, 0);
        let mut owned = OwnedCover::new(&cover);
        owned.call.work -= usize::from(self.short);
        owned
    }
}

fn wanted(cover: &Cover) -> Answer {
    answer(cover, || runs_for(&cover.build()), || first_difference_for(cover))
}

#[test]
fn the_lowest_number_is_answered() {
    for wrong in Wrong::all() {
        let owned = wrong.call();
        let want = wanted(&owned.call());
        assert_eq!((want.reply()[0], want.reply()[1]), wrong.refusal(), "{wrong:?}");
        assert_eq!(compare(&want, &call(Room { words: 64, salt: 4 }, &owned.call())), Ok(()), "{wrong:?}");
    }
}

const NOTHING_WRONG: Wrong = Wrong { limit: false, short: false, clause: false, table: false, nodes: false };

/// Each slice that can be short, by one word; with that word there, the call is answered.
#[test]
fn every_short_slice_is_refused() {
    for which in 0..3 {
        let (mut owned, room) = (NOTHING_WRONG.call(), Room { words: 64, salt: 3 });
        assert_eq!(call(room, &owned.call()).reply.words()[..3], [0, 0, 0]);
        match which {
            0 => drop(owned.nodes.pop()),
            1 => drop(owned.clauses.pop()),
            _ => owned.call.work -= 1,
        }
        assert_eq!(compare(&Answer::refused(SHORT, 0), &call(room, &owned.call())), Ok(()), "{which}");
    }
}

#[test]
fn short_replies_to_the_cover_check() {
    for wrong in Wrong::all() {
        let owned = wrong.call();
        for words in 0..LEAST_REPLY {
            assert_eq!(compare_unserved(&call(Room { words, salt: 99 }, &owned.call())), Ok(()), "{words} words");
        }
    }
}

// ---- the specification's own cases ----

#[test]
fn first_cases_by_hand() {
    let (no, yes) = ([2, 0, 0], [2, 0, 0, 2, 1, 1]);
    let replied = |nodes: &[u32], clauses: &[u64]| {
        let got = call(Room { words: 64, salt: 8 }, &Cover::whole(2, nodes, clauses).with_space(9, 0));
        got.reply.words()[..4].to_vec()
    };
    assert_eq!(replied(&no, &[]), [0, 0, 0, 0]);
    assert_eq!(replied(&yes, &[0, 0]), [0, 0, 0, 0]);
    assert_eq!(replied(&yes, &[]), [0, 0, 1, 0]);
    // mark 1 alone comes before mark 0 alone
    assert_eq!(replied(&no, &[3, 1, 3, 2]), [0, 0, 1, 2]);
    assert_eq!(replied(&no, &[3, 1]), [0, 0, 1, 1]);
    // the list says less, and then more
    assert_eq!(replied(&[2, 0, 0, 2, 1, 1, 0, 0, 1], &[3, 1]), [0, 0, 1, 3]);
    assert_eq!(replied(&[2, 0, 0, 2, 1, 1, 1, 0, 1, 0, 0, 2], &[1, 1]), [0, 0, 1, 1]);
}

#[test]
fn every_altered_answer_is_objected_to() {
    let mut calls: Vec<OwnedCover> = Wrong::all().into_iter().map(Wrong::call).collect();
    let mut differing = NOTHING_WRONG.call();
    differing.clauses[1] = 1;
    calls.push(differing);
    let mut seen = [0; 10];
    for owned in calls {
        let (want, got) = (wanted(&owned.call()), call(Room { words: 64, salt: 5 }, &owned.call()));
        assert_eq!(objects_to_alterations(ENTRY, &want, &got), Ok(()));
        seen[want.reply()[0] as usize] += 1;
    }
    assert!([0, LIMIT, SHORT, CLAUSE, TABLE, NODES].iter().all(|number| seen[*number as usize] > 0), "{seen:?}");
}
