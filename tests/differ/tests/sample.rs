//! The sample for replay: what the program reads is what is made here; it shows every entry, answered and with every refusal that it can give; its
//! lines can be read back; and the program objects to a sample with one number changed.
use differ::answer::{Answer, LIMIT, REDUCED, SHORT, TABLE};
use differ::random::Random;
use differ::root;
use differ::sample::{names, text, Call, Lent};
use differ::sampled::calls;
use differ::tally::families;
use std::collections::{BTreeMap, BTreeSet};
use std::fs::read_to_string;
use std::io::Write;
use std::process::{Command, Stdio};

/// Longer input the program does not read.
const MOST_BYTES: usize = 524_288;

fn stdin() -> String {
    read_to_string(root().join("crates/replay/stdin")).unwrap()
}

#[test]
fn the_program_reads_the_sample() {
    assert_eq!(stdin(), text(), "crates/replay/stdin is no longer what `cargo run --bin sample` prints");
    assert!(text().len() < MOST_BYTES);
    assert!(calls().iter().all(Call::fits));
}

/// What the program writes where nothing differs.
fn agreed(lines: &str) -> String {
    let mut counts = vec![0; names().len()];
    lines.lines().for_each(|line| counts[line.split(' ').next().unwrap().parse::<usize>().unwrap()] += 1);
    let counted: String = counts.iter().enumerate().map(|(entry, calls)| format!("entry {entry}: {calls}\n")).collect();
    format!("{counted}{} calls replayed, 0 differ\n", lines.lines().count())
}

#[test]
fn the_program_is_to_write_that_nothing_differs() {
    assert_eq!(read_to_string(root().join("crates/replay/stdout")).unwrap(), agreed(&stdin()));
}

#[test]
fn the_sample_shows_every_refusal() {
    let mut seen: BTreeMap<&str, BTreeSet<u64>> = BTreeMap::new();
    for call in calls() {
        seen.entry(call.entry).or_default().insert(call.reply[0]);
    }
    for entry in families().flatten() {
        let numbers = &seen[entry.name];
        assert!(numbers.iter().eq([0].iter().chain(entry.refusals)), "{}: {numbers:?}", entry.name);
    }
    assert!(seen["choose_posting"].iter().eq(&[0]));
    assert!(seen["walk"].iter().eq(&[0, LIMIT, SHORT, TABLE, REDUCED]));
    assert_eq!(seen.len(), names().len());
}

/// The numbers of a line, taken one after the other.
struct Numbers(std::vec::IntoIter<u64>);

impl Numbers {
    fn one(&mut self) -> u64 {
        self.0.next().unwrap()
    }

    fn some(&mut self, many: u64) -> Vec<u64> {
        (0..many).map(|_| self.one()).collect()
    }

    fn slice(&mut self) -> (u64, Vec<u64>) {
        let (count, words) = (self.one(), self.one());
        (count, self.some(words))
    }

    fn wanted(&mut self) -> Option<Vec<u64>> {
        self.one().checked_sub(1).map(|words| self.some(words))
    }
}

fn read_back(line: &str) -> Call {
    let mut from = Numbers(line.split(' ').map(|number| number.parse().unwrap()).collect::<Vec<_>>().into_iter());
    let call = Call {
        entry: names()[from.one() as usize],
        numbers: [(); 4].map(|()| from.one()),
        left: from.slice(),
        right: from.slice(),
        list: from.slice(),
        lent: [(); 3].map(|()| from.one()),
        reply: from.wanted().unwrap(),
        wanted: [(); 3].map(|()| from.wanted()),
    };
    assert_eq!(from.0.next(), None);
    call
}

#[test]
fn lines_are_read_back() {
    for call in calls() {
        assert_eq!(read_back(&call.line()), call);
    }
}

#[test]
fn a_line_by_hand() {
    let call = Call::new("get_value", &[4, 0, 2], &Answer::given(vec![1, 0]));
    assert_eq!(call.line(), "8 4 0 2 0 0 0 0 0 0 0 0 0 0 5 0 0 1 0 0 0 0");
    let answer = Answer::Given { values: vec![1], outs: vec![vec![1, 0, 0], vec![]] };
    let call = Call::new("not", &[1, 2], &answer).left(2, &[1, 0, 0, 1, 1, 1]).lent(&[(Lent::Nodes, 6), (Lent::Work, 216)], &answer);
    assert_eq!(call.line(), "14 1 2 0 0 2 6 1 0 0 1 1 1 0 0 0 0 6 0 216 4 0 0 1 4 1 0 0 0 1");
}

/// What the program, which the gate has built, writes for these lines.
fn replayed(lines: &str) -> String {
    let program = root().join("target/native/replay");
    let advice = "run 'tests/native-lib replay' first (./test does)";
    let mut run = Command::new(&program)
        .stdin(Stdio::piped())
        .stdout(Stdio::piped())
        .spawn()
        .unwrap_or_else(|error| panic!("{}: {error}: {advice}", program.display()));
    run.stdin.take().unwrap().write_all(lines.as_bytes()).unwrap();
    String::from_utf8(run.wait_with_output().unwrap().stdout).unwrap()
}

/// A line with one number of the wanted reply changed.
fn with_other_reply(random: &mut Random, call: &Call) -> String {
    let mut other = call.clone();
    let at = random.below(other.reply.len());
    other.reply[at] = other.reply[at].wrapping_add(1);
    other.line()
}

#[test]
fn the_program_objects_to_a_changed_reply() {
    let (calls, random) = (calls(), &mut Random::new(5));
    let mut lines: Vec<String> = calls.iter().map(Call::line).collect();
    let mut objections = String::new();
    // the first call of each entry, and more
    let mut changed: BTreeSet<usize> = names().iter().map(|name| calls.iter().position(|call| call.entry == *name).unwrap()).collect();
    changed.extend((0..calls.len()).step_by(50));
    for at in &changed {
        lines[*at] = with_other_reply(random, &calls[*at]);
        let entry = names().iter().position(|name| *name == calls[*at].entry).unwrap();
        objections.push_str(&format!("line {} differs: entry {entry}\n", at + 1));
    }
    let whole = lines.join("\n") + "\n";
    let wanted = agreed(&whole).replace(" 0 differ", &format!(" {} differ", changed.len()));
    assert_eq!(replayed(&whole), objections + &wanted);
}

/// Another fate for a buffer: a word more than it has, zeroed where it is to be left alone, left alone where it is to be zeroed, or its last word changed.
fn other_fate(lent: u64, wanted: &Option<Vec<u64>>) -> Option<Vec<u64>> {
    match wanted {
        _ if lent == 0 => Some(vec![0]),
        None => Some(vec![]),
        Some(words) if words.is_empty() => None,
        Some(words) => Some([&words[..words.len() - 1], &[words.last().unwrap() ^ 1]].concat()),
    }
}

#[test]
fn the_program_objects_to_any_changed_buffer() {
    let mut spoiled = Vec::new();
    for call in calls() {
        for k in 0..3 {
            let mut other = call.clone();
            other.wanted[k] = other_fate(call.lent[k], &call.wanted[k]);
            spoiled.push(other.line());
        }
    }
    for part in spoiled.chunks(500) {
        let told = replayed(&(part.join("\n") + "\n"));
        assert!(told.ends_with(&format!("{0} calls replayed, {0} differ\n", part.len())), "{}", told.lines().last().unwrap());
    }
}

#[test]
fn the_whole_sample_agrees() {
    assert_eq!(replayed(&stdin()), read_to_string(root().join("crates/replay/stdout")).unwrap());
}
