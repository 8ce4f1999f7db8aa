//! The posting choice, for lists of every length up to 40 words against each other.
use differ::answer::{compare, compare_unserved, Answer, LEAST_REPLY};
use differ::proved::Room;
use differ::proved_posting::choose_posting;

const ROOM: Room = Room { words: LEAST_REPLY, salt: 3 };

/// So many words that tell where they stand.
fn words(from: u64, count: usize) -> Vec<u64> {
    (from..).take(count).collect()
}

/// The whole clauses of the list that has fewer; a tie gives the DNF.
fn posted<'a>(dnf: &'a [u64], cnf: &'a [u64]) -> &'a [u64] {
    let list = if dnf.len() / 2 <= cnf.len() / 2 { dnf } else { cnf };
    list.chunks_exact(2).last().map_or(&[], |_| &list[..list.len() & !1])
}

fn wanted(part: &[u64]) -> Answer {
    let ends = |word: Option<&u64>| word.copied().unwrap_or(0);
    Answer::given(vec![part.len() as u64, ends(part.first()), ends(part.last())])
}

#[test]
fn lists_of_every_length_are_chosen_from() {
    for dnf in (0..=40).map(|count| words(100, count)) {
        for cnf in (0..=40).map(|count| words(900, count)) {
            assert_eq!(
                compare(&wanted(posted(&dnf, &cnf)), &choose_posting(ROOM, &dnf, &cnf)),
                Ok(()),
                "{} and {} words",
                dnf.len(),
                cnf.len()
            );
        }
    }
}

/// A buffer that is padded with zeros counts its padding as clauses; the right call passes the part that is filled.
#[test]
fn the_filled_part_is_passed() {
    let (mut dnf, cnf) = (words(1, 4), words(900, 6));
    dnf.resize(2048, 0);
    assert_eq!(compare(&wanted(&cnf), &choose_posting(ROOM, &dnf, &cnf)), Ok(()));
    assert_eq!(compare(&wanted(&dnf[..4]), &choose_posting(ROOM, &dnf[..4], &cnf)), Ok(()));
}

#[test]
fn short_replies_to_postings() {
    for words in 0..LEAST_REPLY {
        assert_eq!(compare_unserved(&choose_posting(Room { words, salt: 99 }, &[1, 2], &[])), Ok(()), "{words} words");
    }
}

#[test]
fn another_choice_is_objected_to() {
    let (dnf, cnf) = (words(100, 5), words(900, 4));
    let got = choose_posting(ROOM, &dnf, &cnf);
    for other in [&cnf[..], &dnf[..], &dnf[..2]] {
        assert!(compare(&wanted(other), &got).is_err());
    }
    assert_eq!(compare(&wanted(&dnf[..4]), &got), Ok(()));
}
