//! Wrong outcomes and wrong answers made from right ones: a comparison that lets one of them pass shows nothing.
use crate::answer::{Answer, Outcome, NODES, TABLE};
use crate::tally::Tally;

/// The outcome with each word altered in turn: the returned one, those of the reply and of each buffer, and those past their ends.
pub fn alterations(right: &Outcome) -> Vec<Outcome> {
    let others = [0, 1, 2, u64::MAX].into_iter().filter(|returned| *returned != right.returned);
    let mut wrong: Vec<Outcome> = others.map(|returned| Outcome { returned, ..right.clone() }).collect();
    for i in 0..right.reply.len() + 2 {
        let mut altered = right.clone();
        altered.reply.disturb(i);
        wrong.push(altered);
    }
    for (k, buffer) in right.lent.iter().enumerate() {
        for i in 0..buffer.len() + 2 {
            let mut altered = right.clone();
            altered.lent[k].disturb(i);
            wrong.push(altered);
        }
    }
    wrong
}

/// Other answers than the one wanted: another number or place, another value, another word of an output, a word more.
pub fn other_answers(want: &Answer) -> Vec<Answer> {
    match want {
        Answer::Refused { number, place } => {
            let others = [(number + 1, *place), (number - 1, *place), (*number, place + 1), (NODES, 0), (TABLE, 0), (0, 0)];
            let different = others.into_iter().filter(|other| *other != (*number, *place));
            different.map(|(number, place)| Answer::refused(number, place)).collect()
        }
        Answer::Given { values, outs } => other_values(values, outs).into_iter().chain(other_outputs(values, outs)).collect(),
    }
}

fn other_values(values: &[u64], outs: &[Vec<u64>]) -> Vec<Answer> {
    let mut others = vec![Answer::refused(NODES, 0), Answer::refused(TABLE, 2)];
    for i in 0..values.len() {
        let mut altered = values.to_vec();
        altered[i] ^= 1;
        others.push(Answer::Given { values: altered, outs: outs.to_vec() });
    }
    others.push(Answer::Given { values: [values, &[1]].concat(), outs: outs.to_vec() });
    others
}

fn other_outputs(values: &[u64], outs: &[Vec<u64>]) -> Vec<Answer> {
    let mut others = vec![];
    for (k, out) in outs.iter().enumerate() {
        for i in 0..=out.len() {
            let mut altered = outs.to_vec();
            match out.get(i) {
                Some(word) => altered[k][i] = word ^ 1,
                None => altered[k].push(1),
            }
            others.push(Answer::Given { values: values.to_vec(), outs: altered });
        }
    }
    others
}

/// The outcome is the wanted one, and no alteration of either passes.
pub fn objects_to_alterations(entry: &'static str, want: &Answer, got: &Outcome) -> Result<(), String> {
    let judged = |want: &Answer, got: &Outcome| Tally::new().verdict(entry, want, got);
    judged(want, got)?;
    if let Some(passed) = alterations(got).iter().find(|altered| judged(want, altered).is_ok()) {
        return Err(format!("{entry}: {want:?} passes with {passed:?}"));
    }
    match other_answers(want).iter().find(|other| judged(other, got).is_ok()) {
        Some(passed) => Err(format!("{entry}: {passed:?} passes instead of {want:?}")),
        None => Ok(()),
    }
}
