//! Partial valuations against the Rust's, and their refusals against the specification's words.
use biodivine_lib_bdd::BddPartialValuation;
use differ::answer::{compare, compare_unserved, Answer, Outcome, CLAUSE, LEAST_REPLY, VARIABLE};
use differ::convert::to_variable;
use differ::expected;
use differ::proved::Room;
use differ::proved_valuations as proved;
use differ::random::Random;
use differ::reading::Valuation;
use differ::tally::Tally;

const NONE: Valuation = Valuation { fixed: 0, values: 0 };
const ALL: u64 = (1 << 60) - 1;

/// Marks around each limit that a mark number, a mask or a word could be cut at.
const EDGES: [u16; 18] = [0, 1, 31, 32, 33, 58, 59, 60, 61, 62, 63, 64, 65, 255, 256, 32_768, 65_534, 65_535];

/// An entry: its name, the proved call, and the answer that is wanted.
type OnOne = (&'static str, fn(Room, Valuation) -> Outcome, fn(Valuation) -> Answer);
type OnMark = (&'static str, fn(Room, Valuation, u16) -> Outcome, fn(Valuation, u16) -> Answer);
type OnTwo = (&'static str, fn(Room, Valuation, Valuation) -> Outcome, fn(Valuation, Valuation) -> Answer);

const ON_ONE: [OnOne; 4] = [
    ("is_empty", proved::is_empty, expected::is_empty),
    ("cardinality", proved::cardinality, expected::cardinality),
    ("last_fixed_variable", proved::last_fixed_variable, expected::last_fixed_variable),
    ("to_values", proved::to_values, expected::to_values),
];
const ON_MARK: [OnMark; 3] = [
    ("get_value", proved::get_value, expected::get_value),
    ("has_value", proved::has_value, expected::has_value),
    ("unset_value", proved::unset_value, expected::unset_value),
];
const ON_TWO: [OnTwo; 2] = [("extends", proved::extends, expected::extends), ("eq", proved::eq, expected::eq)];

fn check_one(tally: &mut Tally, v: Valuation) {
    for (entry, call, want) in ON_ONE {
        let got = call(tally.room(), v);
        tally.judge(entry, &want(v), &got, || format!("{v:x?}"));
    }
}

fn check_mark(tally: &mut Tally, v: Valuation, id: u16) {
    for (entry, call, want) in ON_MARK {
        let got = call(tally.room(), v, id);
        tally.judge(entry, &want(v, id), &got, || format!("{v:x?} mark {id}"));
    }
    for value in [0, 1] {
        check_set(tally, v, id, value);
    }
}

fn check_set(tally: &mut Tally, v: Valuation, id: u16, value: u64) {
    let got = proved::set_value(tally.room(), v, id, value);
    tally.judge("set_value", &expected::set_value(v, id, value), &got, || format!("{v:x?} mark {id} value {value:#x}"));
}

fn check_two(tally: &mut Tally, v: Valuation, other: Valuation) {
    for (entry, call, want) in ON_TWO {
        let got = call(tally.room(), v, other);
        tally.judge(entry, &want(v, other), &got, || format!("{v:x?} and {other:x?}"));
    }
}

fn check_list(tally: &mut Tally, words: &[u32]) {
    let got = proved::from_values(tally.room(), words);
    tally.judge("from_values", &expected::from_values(words), &got, || format!("{words:?}"));
}

fn check_empty(tally: &mut Tally) {
    let got = proved::empty(tally.room());
    tally.judge("empty", &expected::empty(), &got, String::new);
}

/// All 81 valuations of four marks, from the mark `first` up.
fn over_four_marks(first: u16) -> Vec<Valuation> {
    let pairs = (0..16).flat_map(|fixed| (0..16).map(move |values| Valuation { fixed, values }));
    pairs.filter(|v| v.values & !v.fixed == 0).map(|v| Valuation { fixed: v.fixed << first, values: v.values << first }).collect()
}

fn all_valuations_of_four_marks(tally: &mut Tally) {
    check_empty(tally);
    for first in [0, 30, 56] {
        let all = over_four_marks(first);
        assert_eq!(all.len(), 81);
        for v in all.iter().copied() {
            check_one(tally, v);
            for id in (0..70).chain(EDGES) {
                check_mark(tally, v, id);
            }
            for other in all.iter().copied() {
                check_two(tally, v, other);
            }
        }
        damage_each_bit(tally, &all);
    }
    four_marks_as_lists(tally);
}

/// Each of the 128 bits of each valuation turned over; the result is malformed more often than not.
fn damage_each_bit(tally: &mut Tally, all: &[Valuation]) {
    for v in all.iter().copied() {
        for mark in 0..64 {
            for damaged in [Valuation { fixed: v.fixed ^ 1 << mark, ..v }, Valuation { values: v.values ^ 1 << mark, ..v }] {
                check_one(tally, damaged);
                check_two(tally, damaged, v);
                check_two(tally, v, damaged);
                check_two(tally, damaged, damaged);
                check_mark(tally, damaged, mark);
            }
        }
    }
}

/// All lists of up to four words over four marks and two bad ones.
fn four_marks_as_lists(tally: &mut Tally) {
    let words = [0, 1, 2, 3, 4, 5, 6, 7, 119, 120];
    let mut lists: Vec<Vec<u32>> = vec![vec![]];
    let mut last = lists.clone();
    for _ in 0..4 {
        last = last.iter().flat_map(|list| words.map(|word| [&list[..], &[word]].concat())).collect();
        lists.extend(last.iter().cloned());
    }
    for list in lists {
        check_list(tally, &list);
    }
}

/// A well-formed valuation: dense, sparse, or with few marks unset.
fn well_formed(random: &mut Random) -> Valuation {
    let (even, sparse) = (random.word(), random.word() & random.word() & random.word());
    let fixed = random.pick(&[even, sparse, !sparse, u64::MAX]) & ALL;
    Valuation { fixed, values: random.word() & fixed }
}

/// A valuation near another: the same, one that the first extends, one bit away, or unrelated.
fn near(random: &mut Random, v: Valuation) -> Valuation {
    let (mask, one) = (random.word() | random.word(), 1 << random.below(60));
    match random.below(5) {
        0 => v,
        1 => Valuation { fixed: v.fixed & mask, values: v.values & mask },
        2 => Valuation { fixed: v.fixed, values: v.values ^ one & v.fixed },
        3 => Valuation { fixed: v.fixed | one, values: v.values },
        _ => well_formed(random),
    }
}

/// Words that may be malformed in any way.
fn any_words(random: &mut Random) -> Valuation {
    let v = well_formed(random);
    match random.below(6) {
        0 => Valuation { fixed: random.word(), values: random.word() },
        1 => Valuation { fixed: v.fixed, values: v.values | 1 << random.below(64) },
        2 => Valuation { fixed: v.fixed | 1 << (60 + random.below(4)), values: v.values },
        3 => Valuation { fixed: v.fixed & !(1 << random.below(60)), values: v.values },
        _ => v,
    }
}

fn random_valuations_of_sixty_marks(tally: &mut Tally, random: &mut Random) {
    for _ in 0..150_000 {
        let v = any_words(random);
        check_one(tally, v);
        let id = if random.once_in(6) { random.pick(&EDGES) } else { random.below(60) as u16 };
        check_mark(tally, v, id);
        check_set(tally, v, id, random.pick(&[2, 256, 1 << 16, 1 << 32, 1 << 63, u64::MAX]));
        let well = well_formed(random);
        for (v, other) in [(well, near(random, well)), (v, near(random, v)), (near(random, v), v), (v, any_words(random))] {
            check_two(tally, v, other);
        }
    }
}

fn edges_of_marks_and_words(tally: &mut Tally) {
    let words =
        [0, 1, 1 << 31, 1 << 32, 1 << 58, 1 << 59, 1 << 60, 1 << 61, 1 << 63, ALL, u64::MAX, u64::MAX >> 3, u64::MAX << 60, ALL >> 1];
    let all: Vec<_> = words.iter().flat_map(|fixed| words.map(|values| Valuation { fixed: *fixed, values })).collect();
    for v in all.iter().copied() {
        check_one(tally, v);
        for id in EDGES {
            check_mark(tally, v, id);
        }
        for other in all.iter().copied() {
            check_two(tally, v, other);
        }
    }
}

/// A word for `from_values`: mostly good; a bad one is just over the limit, large, or good again once it is cut.
fn word(random: &mut Random, marks: usize, bad_once_in: usize) -> u32 {
    let good = random.below(2 * marks) as u32;
    if random.once_in(bad_once_in) {
        random.pick(&[120, 121, 122, 127, 128, 1 << 16 | good, 1 << 17 | good, 1 << 31 | good, u32::MAX, u32::MAX - 1])
    } else {
        good
    }
}

fn lists_of_values(tally: &mut Tally, random: &mut Random) {
    for len in 0..=200 {
        for marks in [1, 2, 4, 60] {
            for bad_once_in in [usize::MAX, 10, 100, 400] {
                for _ in 0..30 {
                    let list: Vec<u32> = (0..len).map(|_| word(random, marks, bad_once_in)).collect();
                    check_list(tally, &list);
                }
            }
        }
        bad_entries(tally, random, len);
    }
    for (len, bad) in [(70_000, 69_999), (70_000, 65_536), (70_000, 70_000), (1 << 20, 1 << 20)] {
        let mut list: Vec<u32> = (0..len).map(|_| word(random, 60, usize::MAX)).collect();
        list.extend([120]);
        list.swap(bad, len);
        check_list(tally, &list);
        check_list(tally, &list[..bad]);
    }
}

/// One bad entry at each place of a good list, and then a second: the first counts.
fn bad_entries(tally: &mut Tally, random: &mut Random, len: usize) {
    let good: Vec<u32> = (0..len).map(|_| word(random, 60, usize::MAX)).collect();
    for at in 0..len {
        let mut list = good.clone();
        list[at] = word(random, 60, 1);
        check_list(tally, &list);
        list[random.below(len)] = word(random, 60, 1);
        check_list(tally, &list);
    }
}

#[test]
fn valuations_are_the_rusts() {
    let (mut tally, random) = (Tally::new(), &mut Random::new(4));
    all_valuations_of_four_marks(&mut tally);
    random_valuations_of_sixty_marks(&mut tally, random);
    edges_of_marks_and_words(&mut tally);
    lists_of_values(&mut tally, random);
    tally.finish(3_000_000);
}

/// What to_values lists, from_values takes back: through the proved library's own answers.
#[test]
fn lists_come_back() {
    let (mut tally, random) = (Tally::new(), &mut Random::new(6));
    for _ in 0..20_000 {
        let v = well_formed(random);
        let listed = proved::to_values(tally.room(), v);
        let reply = listed.reply.words();
        let words: Vec<u32> = reply[3..][..reply[2] as usize].iter().map(|word| *word as u32).collect();
        assert_eq!(words.len() as u32, v.fixed.count_ones());
        let back = proved::from_values(tally.room(), &words);
        assert_eq!(compare(&Answer::given(vec![v.fixed, v.values]), &back), Ok(()), "{v:x?}");
    }
}

/// VARIABLE comes before CLAUSE, and of two malformed valuations the first is named.
#[test]
fn order_of_refusals() {
    let (mut tally, broken) = (Tally::new(), Valuation { fixed: 0, values: 1 });
    for (_, call, _) in ON_MARK {
        assert_eq!(compare(&Answer::refused(VARIABLE, 60), &call(tally.room(), broken, 60)), Ok(()));
        assert_eq!(compare(&Answer::refused(CLAUSE, 0), &call(tally.room(), broken, 59)), Ok(()));
    }
    assert_eq!(compare(&Answer::refused(VARIABLE, 65_535), &proved::set_value(tally.room(), broken, 65_535, 1)), Ok(()));
    assert_eq!(compare(&Answer::refused(CLAUSE, 0), &proved::set_value(tally.room(), broken, 0, 1)), Ok(()));
    for (_, call, _) in ON_TWO {
        assert_eq!(compare(&Answer::refused(CLAUSE, 0), &call(tally.room(), broken, broken)), Ok(()));
        assert_eq!(compare(&Answer::refused(CLAUSE, 0), &call(tally.room(), broken, NONE)), Ok(()));
        assert_eq!(compare(&Answer::refused(CLAUSE, 1), &call(tally.room(), NONE, broken)), Ok(()));
    }
}

#[test]
fn short_replies_to_valuations() {
    let full = Valuation { fixed: ALL, values: ALL >> 1 };
    for words in 0..LEAST_REPLY {
        let room = Room { words, salt: 99 };
        let mut outcomes = vec![proved::empty(room), proved::from_values(room, &[3, 4]), proved::from_values(room, &[120])];
        for v in [full, Valuation { fixed: 0, values: 1 }] {
            outcomes.extend(ON_ONE.map(|(_, call, _)| call(room, v)));
            outcomes.extend(ON_MARK.map(|(_, call, _)| call(room, v, 7)));
            outcomes.extend(ON_TWO.map(|(_, call, _)| call(room, v, full)));
            outcomes.push(proved::set_value(room, v, 7, 1));
        }
        assert_eq!(outcomes.len(), 23);
        for outcome in outcomes {
            assert_eq!(compare_unserved(&outcome), Ok(()), "{words} words");
        }
    }
}

/// The Rust's `extends` cuts a length to 16 bits: with a vector of 65,536 cells it compares none. (docs/DIFFERENCES.md, number 1)
#[test]
fn the_rust_extends_fails_at_variable_65535() {
    let fixing = |mark| BddPartialValuation::from_values(&[(to_variable(mark), true)]);
    let nothing = BddPartialValuation::empty();
    assert!(!nothing.extends(&fixing(65_534)));
    assert!(nothing.extends(&fixing(65_535)), "the Rust has been mended");
    let mut other = fixing(65_535);
    other.set_value(to_variable(3), false);
    assert!(fixing(3).extends(&other), "cell 3 differs all the same");
    assert_ne!(nothing.get_value(to_variable(65_535)), fixing(65_535).get_value(to_variable(65_535)));
}
