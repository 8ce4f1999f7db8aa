//! The comparison objects to every kind of wrong answer, and the tally to what was never tried: a test that cannot fail shows nothing.
use differ::answer::{compare, compare_unserved, Answer, Outcome, CLAUSES, LIMIT, NODES, SHEET, SHORT, TABLE, VARIABLE};
use differ::lent::{Buffer, Lent};
use differ::proved::{inspect, Room};
use differ::run::{Run, Shares};
use differ::tally::{families, Entry, Tally};
use differ::wrong::alterations;

/// A buffer as a call would leave it that wrote these words and then zeros.
fn written<T: differ::lent::Word>(len: usize, begin: &[u64]) -> Lent<T> {
    let mut lent = Lent::new(len, 11);
    for i in 0..len {
        lent.set(i, T::narrow(*begin.get(i).unwrap_or(&0)));
    }
    lent
}

/// An answer with a node output, a work buffer and a clause output, and what a right call leaves behind.
fn answered() -> (Answer, Outcome) {
    let want = Answer::Given { values: vec![3, 8], outs: vec![vec![1, 0, 0, 1, 1, 1], vec![], vec![5, 1 << 40]] };
    let lent =
        vec![Buffer::Narrow(written(12, &[1, 0, 0, 1, 1, 1])), Buffer::Narrow(written(20, &[])), Buffer::Wide(written(5, &[5, 1 << 40]))];
    (want, Outcome { returned: 1, reply: written(70, &[0, 0, 3, 8]), lent })
}

/// A refusal, and what a right call leaves behind: buffers zeroed for NODES and CLAUSES, else untouched.
fn refused(number: u64, place: u64) -> (Answer, Outcome) {
    let zeroed = number == NODES || number == CLAUSES;
    let lent = match zeroed {
        true => vec![Buffer::Narrow(written(12, &[])), Buffer::Wide(written(5, &[]))],
        false => vec![Buffer::Narrow(Lent::new(12, 5)), Buffer::Wide(Lent::new(5, 6))],
    };
    (Answer::refused(number, place), Outcome { returned: 1, reply: written(64, &[number, place]), lent })
}

#[test]
fn every_altered_word_is_objected_to() {
    let numbers = [LIMIT, SHORT, TABLE, NODES, CLAUSES, SHEET];
    for (want, right) in numbers.map(|number| refused(number, 7)).into_iter().chain([answered()]) {
        assert_eq!(compare(&want, &right), Ok(()), "{want:?}");
        for wrong in alterations(&right) {
            assert!(compare(&want, &wrong).is_err(), "{want:?} {wrong:?}");
        }
    }
}

#[test]
fn another_answer_is_objected_to() {
    let outs = vec![vec![1, 0, 0, 1, 1, 1], vec![], vec![5, 1 << 40]];
    let given = |values: &[u64], outs: &[Vec<u64>]| Answer::Given { values: values.to_vec(), outs: outs.to_vec() };
    let (want, right) = answered();
    assert_eq!(want, given(&[3, 8], &outs));
    for values in [&[3][..], &[3, 9], &[8, 3], &[3, 8, 1], &[]] {
        assert!(compare(&given(values, &outs), &right).is_err());
    }
    for other in [vec![], outs[..2].to_vec(), [&outs[..], &outs[..1]].concat(), vec![outs[0].clone(), outs[2].clone(), vec![]]] {
        assert!(compare(&given(&[3, 8], &other), &right).is_err());
    }
    for number in [LIMIT, SHORT, NODES, CLAUSES] {
        assert!(compare(&Answer::refused(number, 0), &right).is_err());
    }
    let (_, right) = refused(SHORT, 7);
    for other in [Answer::refused(LIMIT, 7), Answer::refused(SHORT, 6), Answer::refused(CLAUSES, 7), Answer::given(vec![7])] {
        assert!(compare(&other, &right).is_err());
    }
}

/// A buffer left alone where it is to be zeroed, and one zeroed where it is to be left alone.
#[test]
fn zeroed_and_untouched_are_told_apart() {
    let (limit, untouched) = refused(LIMIT, 0);
    let (nodes, zeroed) = refused(NODES, 0);
    assert!(compare(&limit, &Outcome { lent: zeroed.lent.clone(), ..untouched.clone() }).is_err());
    assert!(compare(&nodes, &Outcome { lent: untouched.lent.clone(), ..zeroed.clone() }).is_err());
}

#[test]
fn a_short_reply_that_is_served_or_touched_is_objected_to() {
    let lent = vec![Buffer::Narrow(Lent::new(12, 5)), Buffer::Wide(Lent::new(5, 6))];
    let right = Outcome { returned: 0, reply: Lent::new(63, 4), lent };
    assert_eq!(compare_unserved(&right), Ok(()));
    assert!(compare_unserved(&Outcome { returned: 1, ..right.clone() }).is_err());
    for wrong in alterations(&right).into_iter().filter(|wrong| wrong.returned == 0).skip(1) {
        assert!(compare_unserved(&wrong).is_err());
    }
}

/// Rubbish is never zero, or a word left alone would pass for a word zeroed.
#[test]
fn rubbish_is_never_zero() {
    for salt in 0..200 {
        assert!(Lent::<u32>::new(300, salt << 20).words().iter().all(|word| *word != 0));
        assert!(Lent::<u64>::new(300, salt << 20).words().iter().all(|word| *word != 0));
    }
}

/// A call of the proved library, judged by the right answer and by wrong ones.
#[test]
fn a_call_is_judged() {
    let got = inspect(Room { words: 64, salt: 1 }, 0, 1, &[0, 0, 0]);
    let judged = |want| Tally::new().verdict("inspect", &want, &got);
    assert_eq!(judged(Answer::given(vec![0])), Ok(()));
    assert_eq!(judged(Answer::given(vec![1])), Err("inspect: reply: word 2 is 0, not 1".to_string()));
    assert_eq!(judged(Answer::refused(TABLE, 0)), Err("inspect: reply: word 0 is 0, not 5".to_string()));
    assert_eq!(judged(Answer::refused(0, 3)), Err("inspect: reply: word 1 is 0, not 3".to_string()));
}

/// A tally fed with calls that leave these answers behind.
fn tally_of(entry: &'static str, answers: &[Answer]) -> Tally {
    let mut tally = Tally::new();
    for answer in answers {
        let reply = match answer {
            Answer::Refused { number, place } => written(64, &[*number, *place]),
            Answer::Given { values, .. } => written(64, &[&[0, 0], &values[..]].concat()),
        };
        assert_eq!(tally.verdict(entry, answer, &Outcome { returned: 1, reply, lent: vec![] }), Ok(()));
    }
    tally
}

#[test]
fn an_answer_never_seen_is_objected_to() {
    let refusals = [LIMIT, SHORT, VARIABLE, TABLE].map(|number| Answer::refused(number, 0));
    let all = [&refusals[..], &[0, 1].map(|truth| Answer::given(vec![truth]))].concat();
    assert_eq!(tally_of("eval_in", &all).complete(6), Ok(()));
    assert!(tally_of("eval_in", &all).complete(7).is_err(), "too few calls");
    for missing in 0..all.len() {
        let rest = [&all[..missing], &all[missing + 1..]].concat();
        assert!(tally_of("eval_in", &rest).complete(0).is_err(), "without {:?}", all[missing]);
    }
    let strange = [&all[..], &[Answer::refused(NODES, 0)]].concat();
    assert!(tally_of("eval_in", &strange).complete(0).is_err(), "a number that evaluation never gives");
    assert!(tally_of("evaluation", &all).complete(0).is_err(), "no such entry");
}

/// Everything that an entry can show.
fn shown(entry: &Entry) -> Vec<Answer> {
    entry.refusals.iter().map(|number| Answer::refused(*number, 0)).chain(entry.firsts()).collect()
}

/// A tally that has seen everything that an entry can show, but for one refusal or one first value, is not complete.
#[test]
fn a_missing_refusal_is_objected_to() {
    // an entry with one answer and no refusal is complete, or it was not called
    for entry in families().flatten().filter(|entry| !entry.refusals.is_empty()) {
        let answers = shown(entry);
        let tally_without = |missing: usize| {
            let mut tally = Tally::new();
            for (_, answer) in answers.iter().enumerate().filter(|(k, _)| *k != missing) {
                tally.count(entry.name, answer);
            }
            tally
        };
        assert_eq!(tally_without(answers.len()).complete(0), Ok(()));
        for (missing, answer) in answers.iter().enumerate() {
            assert!(tally_without(missing).complete(0).is_err(), "{} without {answer:?}", entry.name);
        }
    }
}

/// A run that shows everything about these entries, with so many calls, refused ones and large ones.
fn run_of(entries: &[Entry], calls: u64, refused: u64, large: u64) -> Run {
    let mut run = Run { large, ..Run::default() };
    for entry in entries {
        shown(entry).iter().for_each(|answer| run.tally.count(entry.name, answer));
    }
    let (name, number) = (entries[0].name, entries[0].refusals[0]);
    while run.tally.refused() < refused {
        run.tally.count(name, &Answer::refused(number, 0));
    }
    while run.tally.calls() < calls {
        run.tally.count(name, &Answer::given(vec![2]));
    }
    run
}

/// A run with all kinds of answers and enough calls still needs its shares, and every entry.
#[test]
fn missing_shares_are_objected_to() {
    for entries in families().filter(|entries| entries.len() > 1) {
        let many = entries.len() as u64;
        let shares = Shares { calls: 10_000, large: 200, refused: 1000, entries: many };
        assert_eq!(run_of(entries, 10_000, 1000, 200).enough(shares), Ok(()));
        assert!(run_of(entries, 9_999, 1000, 200).enough(shares).is_err());
        assert!(run_of(entries, 10_000, 999, 200).enough(shares).is_err());
        assert!(run_of(entries, 10_000, 1000, 199).enough(shares).is_err());
        assert!(run_of(&entries[..entries.len() - 1], 10_000, 1000, 200).enough(shares).is_err());
    }
}
