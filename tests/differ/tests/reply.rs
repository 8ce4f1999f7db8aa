//! A reply buffer under 64 words is refused by returning 0, and nothing is touched; one of 64 is served.
use differ::answer::{compare, compare_unserved, Answer, Outcome, LEAST_REPLY, TABLE};
use differ::proved::{eval_in, inspect, Room};

/// A good table and a broken one: neither may show through a short reply.
const GOOD: [u32; 9] = [1, 0, 0, 1, 1, 1, 0, 0, 1];
const BROKEN: [u32; 9] = [1, 0, 0, 1, 1, 1, 0, 0, 2];

fn short_replies(call: impl Fn(Room) -> Outcome, served: Answer) {
    for words in 0..LEAST_REPLY {
        for salt in [0, 1, u64::MAX, 0x0123_4567_89ab_cdef] {
            assert_eq!(compare_unserved(&call(Room { words, salt })), Ok(()), "{words} words");
        }
    }
    for words in [LEAST_REPLY, LEAST_REPLY + 1, 1000] {
        assert_eq!(compare(&served, &call(Room { words, salt: 7 })), Ok(()), "{words} words");
    }
}

#[test]
fn short_replies_to_tables() {
    short_replies(|room| inspect(room, 1, 3, &GOOD), Answer::given(vec![2]));
    short_replies(|room| inspect(room, 1, 3, &BROKEN), Answer::refused(TABLE, 2));
    short_replies(|room| eval_in(room, 1, 3, &GOOD, 1), Answer::given(vec![1]));
    short_replies(|room| eval_in(room, 1, 3, &BROKEN, 1), Answer::refused(TABLE, 2));
}
