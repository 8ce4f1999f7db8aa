//! What the operators come to by the oracle, in the specification's numbers.
use crate::convert::to_variable;
use crate::operation::{Operation, Operator, Table};
use crate::reading_operators::Found;
use biodivine_lib_bdd::Bdd;

/// The oracle's answer on its own tables; they are reduced, so that their nodes' marks are those that the answer depends on.
pub fn found(operator: Operator, left: &Bdd, right: &Bdd, mark: u16, value: bool) -> Found {
    let made = |bdd: Bdd| Found::Table(bdd.renumbered());
    match operator {
        Operator::Not => made(left.not()),
        Operator::And => made(left.and(right)),
        Operator::Or => made(left.or(right)),
        Operator::AndNot => made(left.and_not(right)),
        Operator::ForAll => made(left.var_for_all(to_variable(mark))),
        Operator::Exists => made(left.var_exists(to_variable(mark))),
        Operator::Restrict => made(left.var_restrict(to_variable(mark), value)),
        Operator::Support => Found::Number(left.support_set().iter().fold(0, |marks, mark| marks | 1 << mark.to_index())),
        Operator::Cardinality => Found::Number(left.exact_cardinality().to_string().parse().unwrap()),
    }
}

/// The oracle's answer on the words of a call that inspection lets through.
pub fn found_for(call: &Operation) -> Found {
    let [left, right] = [call.left, if call.operator.is_binary() { call.right } else { call.left }].map(reduced);
    found(call.operator, &left, &right, call.mark, call.value != 0)
}

/// An ordered table in the oracle's form; joined with itself, since the oracle's own tables are reduced.
pub fn reduced(table: Table) -> Bdd {
    let triples: Vec<(u16, u32, u32)> = table.nodes.chunks(3).take(table.count).map(|node| (node[0] as u16, node[1], node[2])).collect();
    let as_given = Bdd::from_triples(&triples);
    as_given.and(&as_given)
}
