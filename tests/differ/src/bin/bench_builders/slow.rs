//! Lists made to be slow: every build ends, and the slowest that a search found stays quick enough.
use crate::corpora::Case;
use crate::Buffers;
use differ::building::{Build, Builder};
use differ::corpus::clause;
use differ::lists::{boxes, cell, interval, parity_chain, random_cells, rules, shuffle};
use differ::random::Random;
use differ::reading::Valuation;
use std::time::{Duration, Instant};

/// The most that a build of 1,024 clauses over 60 marks may take with room 4,096.
const LIMIT: Duration = Duration::from_millis(250);

/// How many kinds of lists there are.
const KINDS: usize = 10;

/// Two marks far apart in each of these clauses: every one doubles the table's middle.
fn far_apart(first: u16, pairs: u16, apart: u16, random: &mut Random) -> Vec<Valuation> {
    let fixed = |k: u16| 1 << (first + k) | 1 << (first + k + apart);
    (0..pairs).map(|k| Valuation { fixed: fixed(k), values: random.word() & fixed(k) }).collect()
}

/// Neighbouring cells of the last marks alone: each changes what stands at the bottom of every path.
fn cells_at_the_end(random: &mut Random, marks: u16, many: usize) -> Vec<Valuation> {
    let up = |v: Valuation| Valuation { fixed: v.fixed << (60 - marks), values: v.values << (60 - marks) };
    let cells = if random.coin() { interval(random, marks, many) } else { random_cells(random, marks, many) };
    cells.into_iter().map(up).collect()
}

/// Clauses of a few late marks, and an early one now and then.
fn late(random: &mut Random, many: usize, literals: usize, window: u16) -> Vec<Valuation> {
    let early = |random: &mut Random| if random.once_in(3) { 1 << random.below(20) } else { 0 };
    let one = |random: &mut Random| {
        let v = clause(random, window, literals);
        let fixed = v.fixed << (60 - window) | early(random);
        Valuation { fixed, values: random.word() & fixed }
    };
    (0..many).map(|_| one(random)).collect()
}

fn repeated(list: Vec<Valuation>) -> Vec<Valuation> {
    list.into_iter().cycle().take(1024).collect()
}

/// The list of a kind for a seed: 1,024 clauses over 60 marks, or as many of them as fit the room.
pub fn list(kind: usize, seed: u64) -> Case {
    let random = &mut Random::new(seed);
    let n = 60;
    let (pairs, apart) = (6 + random.below(6) as u16, 12 + random.below(20) as u16);
    let (literals, window) = (2 + random.below(5), 7 + random.below(8) as u16);
    let (name, mut clauses) = match kind {
        0 => ("rules", rules(random, n, 1024, literals as u32, window)),
        1 => ("shuffled cells", {
            let many = 40 + random.below(60);
            let mut cells = [random_cells(random, n, many), boxes(random, n, 4, 6), interval(random, n, 500)].concat();
            shuffle(random, &mut cells);
            cells
        }),
        2 => ("parities", {
            let width = random.pick(&[3, 4, 5, 6, 8]);
            let step = 1 + random.below(usize::from(width));
            let mut chain = parity_chain(n, width, step);
            shuffle(random, &mut chain);
            repeated(chain)
        }),
        3 => ("far-apart pairs, cells at the end", {
            let marks = 3 + random.below(14) as u16;
            [far_apart(0, pairs, apart, random), cells_at_the_end(random, marks, 1024)].concat()
        }),
        4 => ("far-apart pairs, late clauses", [far_apart(0, pairs, apart, random), late(random, 1024, literals, window)].concat()),
        5 => ("cells of 12 marks, late clauses", {
            let first = random.below(20);
            let up = |v: Valuation| Valuation { fixed: v.fixed << first, values: v.values << first };
            let cells: Vec<Valuation> = random_cells(random, 12, 500).into_iter().map(up).collect();
            [cells, late(random, 600, literals, window)].concat()
        }),
        6 => ("far-apart pairs again and again", {
            let mut list = repeated(far_apart(0, pairs, apart, random));
            shuffle(random, &mut list);
            list
        }),
        7 => ("long clauses", {
            let literals = 20 + random.below(40);
            (0..1024).map(|_| clause(random, n, literals)).collect()
        }),
        8 => ("cells of marks far apart", {
            let marks: Vec<u32> = (0..10).map(|k| k * (1 + random.below(6) as u32)).collect();
            let spread = |case: u64| marks.iter().enumerate().fold(0, |word, (k, mark)| word | (case >> k & 1) << mark);
            let mut list: Vec<Valuation> = (0..1024).map(|case| Valuation { fixed: spread(1023), values: spread(case) }).collect();
            shuffle(random, &mut list);
            list
        }),
        _ => ("cells near a few", {
            let corners: Vec<u64> = (0..1 + random.below(30)).map(|_| random.word()).collect();
            let far = 30 + random.below(28);
            (0..1024).map(|_| cell(n, random.pick(&corners) ^ (random.word() & random.word()) << far)).collect()
        }),
    };
    clauses.truncate(1024);
    let builder = if random.coin() { Builder::Dnf } else { Builder::Cnf };
    let name = format!("{} of {name} (kind {kind}, seed {seed})", builder.name());
    Case { name, n, builder, clauses }
}

/// The list cut before its first run over the room, so that all of it is built; then clauses of it again, to 1,024.
fn fitting(buffers: &mut Buffers, case: &mut Case) {
    loop {
        let words = case.builder.words(&case.clauses);
        buffers.time(&Build::whole(case.builder, case.n, &words));
        match buffers.replied() {
            [0, ..] => return,
            [_, place, _] => {
                case.clauses.truncate(place as usize - 1);
                let many = case.clauses.len().max(1);
                let again: Vec<Valuation> = (0..1024 - case.clauses.len()).map(|i| case.clauses[(i * 7 + 3) % many]).collect();
                case.clauses.extend(again);
            }
        }
    }
}

fn time_of(buffers: &mut Buffers, case: &Case) -> Duration {
    let words = case.builder.words(&case.clauses);
    let call = Build::whole(case.builder, case.n, &words);
    (0..3).map(|_| buffers.time(&call)).min().unwrap()
}

/// Tries lists of every kind, or of one, until the time is over.
pub fn search(buffers: &mut Buffers, how_long: Duration, only: Option<usize>) {
    let (start, mut searched, mut slowest) = (Instant::now(), 0, vec![(Duration::ZERO, String::new()); KINDS]);
    for seed in 1.. {
        for (kind, slowest) in slowest.iter_mut().enumerate().filter(|(kind, _)| only.is_none_or(|only| only == *kind)) {
            if start.elapsed() > how_long {
                continue;
            }
            let mut case = list(kind, seed);
            fitting(buffers, &mut case);
            let taken = time_of(buffers, &case);
            searched += 1;
            if taken > slowest.0 {
                *slowest = (taken, format!("{}: {} clauses, {} nodes", case.name, case.clauses.len(), buffers.replied()[2]));
            }
        }
        if start.elapsed() > how_long {
            break;
        }
    }
    println!("{searched} lists searched");
    slowest.iter().for_each(|(taken, name)| println!("{:>8.1} ms {name}", taken.as_secs_f64() * 1e3));
}

/// The slowest list that the search has found, by its kind and seed.
const SLOWEST: (usize, u64) = (3, 76);

pub fn slowest(buffers: &mut Buffers) -> Case {
    let mut case = list(SLOWEST.0, SLOWEST.1);
    fitting(buffers, &mut case);
    case
}

pub fn time_slowest(buffers: &mut Buffers) {
    let case = slowest(buffers);
    let taken = time_of(buffers, &case);
    let verdict = if taken <= LIMIT { "within" } else { "OVER" };
    println!("slowest list found: {}, {:.1} ms ({verdict} {} ms)", case.name, taken.as_secs_f64() * 1e3, LIMIT.as_millis());
}
