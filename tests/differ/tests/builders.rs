//! The four builders against truth tables and against the oracle's own builders, and their refusals against the specification's words.
use differ::answer::{compare, compare_unserved, Answer, CLAUSE, LEAST_REPLY, LIMIT, NODES, SHORT, VARIABLE};
use differ::building::{all_marks, Build, Builder};
use differ::corpus::{windowed, MOST_NODES};
use differ::expected_builders::{runs, runs_for};
use differ::lists::{cell, holds, large_list, lists_of, random_cells, rooms, shuffle, some_clauses, well_formed, Canonical};
use differ::operation::Space;
use differ::proved::Room;
use differ::proved_builders::call;
use differ::random::Random;
use differ::reading::{says, Valuation};
use differ::reading_builders::{answer, Runs};
use differ::run::{Run, Shares};
use differ::spoiled_builds::OwnedBuild;
use differ::truth::Function;
use differ::wrong::objects_to_alterations;

/// What the runs must reach together; a large call has 30 or more marks and 100 or more clauses.
const SHARES: Shares = Shares { calls: 1_000_000, large: 20_000, refused: 50_000, entries: 4 };
const MANY_MARKS: u16 = 30;
const MANY_CLAUSES: usize = 100;
const MOST_CLAUSES: usize = 1024;

fn judge(run: &mut Run, build: &Build, runs: impl FnOnce() -> Runs) -> Answer {
    let want = answer(build, runs);
    let got = call(run.tally.room(), build);
    run.judge(build.builder.name(), &want, &got, is_large(build, &want), || format!("{build:?}"));
    want
}

/// Only calls that got past inspection count.
fn is_large(build: &Build, want: &Answer) -> bool {
    let past_inspection = matches!(want, Answer::Given { .. } | Answer::Refused { number: NODES, .. });
    past_inspection && build.n >= MANY_MARKS && build.count >= MANY_CLAUSES
}

// ---- truth tables ----

/// Every list of up to so many entries over n marks with both polarities, at every room from the least to one more than any list needs.
fn every_list(run: &mut Run, canonical: &mut Canonical, n: u16, most: usize) {
    let greatest_need = (0..1 << (1 << n)).map(|answers| canonical.of(Function { n, answers }).len() / 3).max().unwrap();
    for builder in Builder::ALL {
        let entries = if builder.takes_cases() { (0..1 << n).map(|case| cell(n, case)).collect() } else { well_formed(n) };
        for list in (0..=most).flat_map(|many| lists_of(&entries, many)) {
            let (words, runs) = (builder.words(&list), canonical.runs(builder, n, &list));
            for room in 2..=greatest_need + 1 {
                judge(run, &Build::whole(builder, n, &words).with_space(room, room % 3), || runs.clone());
            }
        }
    }
}

/// Every pair of words with bits up to one above the marks, well-formed or not, as a first and as a second entry.
fn every_entry(run: &mut Run, canonical: &mut Canonical, n: u16) {
    let words = || 0..2u64 << n;
    let entries: Vec<Valuation> = words().flat_map(|fixed| words().map(move |values| Valuation { fixed, values })).collect();
    for builder in Builder::ALL {
        for list in (1..=2).flat_map(|many| lists_of(&entries, many)) {
            let words = builder.words(&list);
            let build = Build::whole(builder, n, &words).with_space(5, 0);
            judge(run, &build, || canonical.runs(builder, n, &build.clauses()));
        }
    }
}

fn small_run() -> Run {
    let (mut run, mut canonical) = (Run::default(), Canonical::default());
    for (n, most) in [(0, 5), (1, 5), (2, 4), (3, 3)] {
        every_list(&mut run, &mut canonical, n, most);
    }
    for n in 0..=2 {
        every_entry(&mut run, &mut canonical, n);
    }
    run
}

// ---- the oracle ----

/// A few cases of the oracle's table held against the list: its apply is ours, so it is not simply believed.
fn hold_against_the_list(random: &mut Random, builder: Builder, n: u16, clauses: &[Valuation], table: &[u32]) {
    for _ in 0..4 {
        let near = clauses.get(random.below(clauses.len() + 1)).map_or(0, |clause| clause.values);
        let case = if random.coin() { random.bits(n) } else { near };
        let truth = holds(builder, clauses, case);
        assert_eq!(says(table.len() / 3, table, case), truth, "the oracle is wrong about {builder:?} {clauses:x?}");
    }
}

/// One list with one builder, in every room that matters, and now and then a call with something spoiled.
fn check_list(run: &mut Run, random: &mut Random, builder: Builder, n: u16, clauses: &[Valuation]) {
    let (words, runs) = (builder.words(clauses), runs(builder, n, clauses));
    if let Some(table) = &runs.table {
        hold_against_the_list(random, builder, n, clauses, table);
    }
    // words past the count are not looked at
    let longer = [&words[..], &[random.word(), u64::MAX]].concat();
    for room in rooms(random, &runs) {
        let list = if random.once_in(4) { &longer } else { &words };
        let build = Build { count: clauses.len(), ..Build::whole(builder, n, list) }.with_space(room, random.below(9));
        judge(run, &build, || runs.clone());
        if random.once_in(5) {
            check_spoiled(run, random, &build);
        }
    }
}

/// Where nothing is refused after all, the oracle answers for the words as they are.
fn check_spoiled(run: &mut Run, random: &mut Random, good: &Build) {
    let mut spoiled = OwnedBuild::new(good);
    spoiled.spoil(random);
    judge(run, &spoiled.call(), || runs_for(&spoiled.call()));
}

/// The list as clauses, with both polarities, and as cases where it is one of cases.
fn check_all_builders(run: &mut Run, random: &mut Random, n: u16, clauses: &[Valuation]) {
    let are_cases = clauses.iter().all(|clause| clause.fixed == all_marks(n));
    for builder in Builder::ALL.into_iter().filter(|builder| are_cases || !builder.takes_cases()) {
        check_list(run, random, builder, n, clauses);
    }
}

fn random_run() -> Run {
    let (mut run, random) = (Run::default(), &mut Random::new(41));
    for n in 0..=60 {
        for _ in 0..RANDOM_LISTS {
            let list = some_clauses(random, n);
            check_all_builders(&mut run, random, n, &list);
            let cases = random.below(8);
            let cases = random_cells(random, n, cases);
            check_list(&mut run, random, Builder::DnfValuation, n, &cases);
            check_list(&mut run, random, Builder::CnfValuation, n, &cases);
        }
    }
    run
}
const RANDOM_LISTS: usize = 500;

fn large_lists(run: &mut Run, random: &mut Random) {
    for kind in 0..LARGE_LISTS {
        let (n, mut list) = large_list(random, kind);
        if random.coin() {
            shuffle(random, &mut list);
        }
        check_all_builders(run, random, n, &list);
    }
}
const LARGE_LISTS: usize = 1300;

/// Cells over 60 marks whose table has exactly as many nodes as a call takes: the last cells part late from the others.
fn greatest_list(random: &mut Random) -> Vec<Valuation> {
    let size = |list: &[Valuation]| runs(Builder::DnfValuation, 60, list).sizes[list.len()];
    let mut list = random_cells(random, 60, 70);
    while size(&list) != MOST_NODES {
        let Valuation { values, .. } = random.pick(&list);
        let from = random.below(60);
        list.push(cell(60, values ^ random.word() << from));
        if size(&list) > MOST_NODES {
            list.pop();
        }
    }
    list
}

/// The greatest tables, and the greatest number of clauses; one node of room or one clause more or less.
fn greatest_lists(run: &mut Run, random: &mut Random) {
    let greatest = greatest_list(random);
    let long = [windowed(random, 60, 1000, 5, 6), vec![Valuation { fixed: 0, values: 0 }; 25]].concat();
    for (list, many) in [(&greatest, greatest.len()), (&long, MOST_CLAUSES - 1), (&long, MOST_CLAUSES), (&long, MOST_CLAUSES + 1)] {
        let are_cases = list[0].fixed == all_marks(60);
        for builder in Builder::ALL.into_iter().filter(|builder| are_cases || !builder.takes_cases()) {
            let words = builder.words(&list[..many]);
            let build = Build::whole(builder, 60, &words);
            let runs = runs_for(&build);
            for room in [MOST_NODES, MOST_NODES - 1, runs.need().min(MOST_NODES), 2] {
                judge(run, &build.with_space(room, 1), || runs.clone());
            }
        }
    }
}

/// Numbers of marks, counts and rooms at their limits, with every length of a slice that matters.
fn limits(run: &mut Run, random: &mut Random) {
    const COUNTS: [usize; 9] = [0, 1, 2, 1023, 1024, 1025, 65_537, usize::MAX / 2 + 2, usize::MAX];
    const ROOMS: [usize; 9] = [0, 1, 2, 3, 4096, 4097, 65_538, usize::MAX / 12 + 1, usize::MAX];
    for n in [0, 1, 59, 60, 61, 63, 64, 256, 65_535] {
        let list = [vec![0; 2000], vec![random.word() & 1; 100]].concat();
        for (count, room) in COUNTS.into_iter().flat_map(|count| ROOMS.map(|room| (count, room))) {
            for builder in Builder::ALL {
                check_limit(run, random, builder, n, &list, count, room);
            }
        }
    }
}

/// Slices are short by a word or long enough.
fn check_limit(run: &mut Run, random: &mut Random, builder: Builder, n: u16, list: &[u64], count: usize, room: usize) {
    let short = [(); 3].map(|()| usize::from(random.once_in(8)));
    let needed = count.min(MOST_CLAUSES + 1) * builder.words_per_entry();
    let list = &list[..needed.saturating_sub(short[0])];
    let (out, work) = (3 * room.min(MOST_NODES + 1), 12 * room.min(MOST_NODES + 1) + 192);
    let space = Space { room, out: out.saturating_sub(short[1]), work: work - short[2] };
    let build = Build { builder, n, count, list, space };
    judge(run, &build, || runs_for(&build));
}

fn large_run() -> Run {
    let (mut run, random) = (Run::default(), &mut Random::new(42));
    greatest_lists(&mut run, random);
    limits(&mut run, random);
    large_lists(&mut run, random);
    run
}

#[test]
fn builders_are_the_oracles() {
    let other = std::thread::spawn(large_run);
    let (mut run, random) = (small_run(), random_run());
    run.absorb(random);
    run.absorb(other.join().expect("a call of the other half differs"));
    run.finish("builders", SHARES);
}

// ---- order of refusals, replies ----

/// What can be wrong with a call, each by itself.
#[derive(Clone, Copy, Debug)]
struct Wrong {
    limit: bool,
    short: bool,
    entry: bool,
    nodes: bool,
}

impl Wrong {
    fn all() -> Vec<Wrong> {
        let bit = |word: u32, k: u32| word >> k & 1 == 1;
        (0..16).map(|w| Wrong { limit: bit(w, 0), short: bit(w, 1), entry: bit(w, 2), nodes: bit(w, 3) }).collect()
    }

    /// The number and place that the specification gives, or 0 where the call is answered.
    fn refusal(self, builder: Builder) -> (u64, u64) {
        match self {
            Wrong { limit: true, .. } => (LIMIT, 0),
            Wrong { short: true, .. } => (SHORT, 0),
            Wrong { entry: true, .. } if builder.takes_cases() => (VARIABLE, 2),
            Wrong { entry: true, .. } => (CLAUSE, 2),
            Wrong { nodes: true, .. } => (NODES, 1),
            _ => (0, 0),
        }
    }

    /// Three cells over three marks; the first alone has five nodes.
    fn call(self, builder: Builder) -> OwnedBuild {
        let mut list = [1, 6, 7].map(|case| cell(3, case));
        list[2].values |= if self.entry { 1 << 40 } else { 0 };
        let words = builder.words(&list);
        let build = Build::whole(builder, if self.limit { 61 } else { 3 }, &words).with_space(if self.nodes { 4 } else { 9 }, 0);
        let mut owned = OwnedBuild::new(&build);
        owned.call.space.work -= usize::from(self.short);
        owned
    }
}

#[test]
fn the_lowest_number_is_answered() {
    let mut run = Run::default();
    for wrong in Wrong::all() {
        for builder in Builder::ALL {
            let owned = wrong.call(builder);
            let reply = judge(&mut run, &owned.call(), || runs_for(&owned.call())).reply();
            assert_eq!((reply[0], reply[1]), wrong.refusal(builder), "{builder:?} {wrong:?}");
        }
    }
    run.tally.print();
}

const NOTHING_WRONG: Wrong = Wrong { limit: false, short: false, entry: false, nodes: false };

/// Each slice that can be short, by one word; with that word there, the call is answered.
#[test]
fn every_short_slice_is_refused() {
    for builder in Builder::ALL {
        for which in 0..3 {
            let mut owned = NOTHING_WRONG.call(builder);
            let room = Room { words: 64, salt: 3 };
            assert_eq!(call(room, &owned.call()).reply.words()[0], 0);
            match which {
                0 => drop(owned.list.pop()),
                1 => owned.call.space.out -= 1,
                _ => owned.call.space.work -= 1,
            }
            assert_eq!(compare(&Answer::refused(SHORT, 0), &call(room, &owned.call())), Ok(()), "{builder:?} {which}");
        }
    }
}

#[test]
fn short_replies_to_builders() {
    let entry = Wrong { entry: true, ..NOTHING_WRONG };
    for wrong in [NOTHING_WRONG, entry, Wrong { nodes: true, ..NOTHING_WRONG }, Wrong { limit: true, ..entry }] {
        for builder in Builder::ALL {
            let owned = wrong.call(builder);
            for words in 0..LEAST_REPLY {
                assert_eq!(compare_unserved(&call(Room { words, salt: 99 }, &owned.call())), Ok(()), "{builder:?} {words} words");
            }
            let want = answer(&owned.call(), || runs_for(&owned.call()));
            for words in [LEAST_REPLY, 65, 1000] {
                assert_eq!(compare(&want, &call(Room { words, salt: 99 }, &owned.call())), Ok(()), "{builder:?} {words} words");
            }
        }
    }
}

// ---- the specification's own lists ----

fn made(builder: Builder, n: u16, words: &[u64], room: usize) -> (u64, u64, u64, Vec<u32>) {
    let got = call(Room { words: 64, salt: 8 }, &Build::whole(builder, n, words).with_space(room, 0));
    let out = match &got.lent[0] {
        differ::lent::Buffer::Narrow(lent) => lent.words().to_vec(),
        differ::lent::Buffer::Wide(_) => panic!("a node output has narrow words"),
    };
    let [number, place, count] = got.reply.words()[..3] else { panic!("a reply has 64 words") };
    (number, place, count, out[..3 * count as usize].to_vec())
}

#[test]
fn lists_by_hand() {
    // constants
    assert_eq!(made(Builder::Dnf, 2, &[], 2), (0, 0, 1, vec![2, 0, 0]));
    assert_eq!(made(Builder::Cnf, 2, &[], 2), (0, 0, 2, vec![2, 0, 0, 2, 1, 1]));
    assert_eq!(made(Builder::Dnf, 0, &[0, 0], 2), (0, 0, 2, vec![0, 0, 0, 0, 1, 1]));
    assert_eq!(made(Builder::Cnf, 0, &[0, 0], 2), (0, 0, 1, vec![0, 0, 0]));
    assert_eq!(made(Builder::DnfValuation, 0, &[0], 2), (0, 0, 2, vec![0, 0, 0, 0, 1, 1]));
    assert_eq!(made(Builder::CnfValuation, 0, &[0], 2), (0, 0, 1, vec![0, 0, 0]));
    // both marks, with room and without
    assert_eq!(made(Builder::Dnf, 2, &[3, 3], 4), (0, 0, 4, vec![2, 0, 0, 2, 1, 1, 1, 0, 1, 0, 0, 2]));
    assert_eq!(made(Builder::Dnf, 2, &[3, 3], 3), (NODES, 1, 0, vec![]));
    // the first run is over room though the whole list is not
    assert_eq!(made(Builder::Dnf, 2, &[3, 0, 3, 2, 1, 1], 3), (NODES, 1, 0, vec![]));
    assert_eq!(made(Builder::Dnf, 2, &[3, 0, 3, 2, 1, 1], 4), (0, 0, 2, vec![2, 0, 0, 2, 1, 1]));
    // a clause whose own table is over room does not matter where the runs fit
    assert_eq!(made(Builder::Dnf, 4, &[1, 1, 15, 15], 3), (0, 0, 3, vec![4, 0, 0, 4, 1, 1, 0, 0, 1]));
    // a case as a CNF clause: no at its complement
    assert_eq!(made(Builder::CnfValuation, 2, &[2], 4), (0, 0, 4, vec![2, 0, 0, 2, 1, 1, 1, 0, 1, 0, 1, 2]));
}

// ---- the tests' own parts ----

#[test]
fn every_altered_answer_is_objected_to() {
    let mut seen = [0; 10];
    for wrong in Wrong::all() {
        for builder in Builder::ALL {
            let owned = wrong.call(builder);
            let want = answer(&owned.call(), || runs_for(&owned.call()));
            let got = call(Room { words: 64, salt: 5 }, &owned.call());
            assert_eq!(objects_to_alterations(builder.name(), &want, &got), Ok(()), "{wrong:?}");
            seen[want.reply()[0] as usize] += 1;
        }
    }
    assert!([0, LIMIT, SHORT, VARIABLE, CLAUSE, NODES].iter().all(|number| seen[*number as usize] > 0), "{seen:?}");
}

/// The oracle's runs are those of the truth tables, on every short list of two marks and on some of three and four.
#[test]
fn the_oracles_runs_are_the_truth_tables() {
    let (mut canonical, random) = (Canonical::default(), &mut Random::new(43));
    for builder in [Builder::Dnf, Builder::Cnf] {
        for list in (0..=3).flat_map(|many| lists_of(&well_formed(2), many)) {
            assert_eq!(runs(builder, 2, &list), canonical.runs(builder, 2, &list), "{builder:?} {list:?}");
        }
    }
    for round in 0..2_000 {
        let n = 3 + round % 2;
        let list = some_clauses(random, n);
        for builder in [Builder::Dnf, Builder::Cnf] {
            assert_eq!(runs(builder, n, &list), canonical.runs(builder, n, &list), "{builder:?} {list:?}");
        }
    }
}
