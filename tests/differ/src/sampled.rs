//! The calls of the sample: of each entry a few dozen on small tables and lists, about half of them spoiled. Where nothing is refused the oracle answers.
use crate::answer::Answer;
use crate::building::{Build, Builder};
use crate::convert::to_case;
use crate::copies::{damage, forms};
use crate::corpus::{built, clause, unreduced, Built};
use crate::covering::Cover;
use crate::expected_extractors::listed as oracles_list;
use crate::expected_operators::{found_for, reduced};
use crate::expected_short::{listed as oracles_short_list, Rule};
use crate::extracting::{Extraction, Extractor};
use crate::operation::{Operation, Operator, Space, Table};
use crate::random::Random;
use crate::reading::{self, Valuation};
use crate::reading_sheet::{CNF, DNF};
use crate::sample::{Call, Lent};
use crate::sheets::{list_sheet, table_sheet};
use crate::shortening::{self, Shortening};
use crate::spoiled::{cut, damage_words, shorter, spoiled_count, spoiled_n, spoiled_room, Owned};
use crate::spoiled_builds::OwnedBuild;
use crate::spoiled_covers::OwnedCover;
use crate::{expected, expected_builders, expected_cover, reading_builders, reading_cover, reading_extractors};
use crate::{reading_operators, reading_sheet, reading_short, reading_walk};

/// The most nodes of a sampled table, and how many tables there are.
const MOST_NODES: usize = 12;
const TABLES: usize = 40;
/// How many calls each entry of the families with buffers has.
const MANY: usize = 40;

struct Sample {
    random: Random,
    tables: Vec<Built>,
    calls: Vec<Call>,
}

pub fn calls() -> Vec<Call> {
    let mut random = Random::new(7);
    let tables = some_tables(&mut random);
    let mut sample = Sample { random, tables, calls: vec![] };
    sample.add(Call::new("empty", &[], &expected::empty()));
    for at in 0..TABLES {
        sample.table_calls(at);
        if at % 2 == 0 {
            sample.walk_calls(at);
        }
    }
    for _ in 0..MANY {
        sample.valuation_calls();
        Operator::ALL.into_iter().for_each(|operator| sample.operation(operator));
        Builder::ALL.into_iter().for_each(|builder| sample.build(builder));
        sample.cover();
        Extractor::ALL.into_iter().for_each(|extractor| sample.extraction(extractor));
        sample.short_list();
        sample.sheet();
        sample.posting();
    }
    sample.calls
}

/// Tables over few marks and over many, constants among them, spread over all that the oracle built.
fn some_tables(random: &mut Random) -> Vec<Built> {
    let all: Vec<Built> = built(random, 3).into_iter().filter(|table| table.bdd.size() <= MOST_NODES).collect();
    let (constant, other): (Vec<_>, Vec<_>) = all.into_iter().partition(|table| table.bdd.size() <= 2);
    let spread = |tables: Vec<Built>, many: usize| {
        let every = tables.len() / many;
        tables.into_iter().step_by(every).take(many).collect::<Vec<_>>()
    };
    spread(constant, TABLES / 8).into_iter().chain(spread(other, TABLES - TABLES / 8)).collect()
}

/// What a whole walk and two steps past its end come to: for each word three times the number so far, and the word. A clause has 1 and its two words, the end 0.
fn noted(list: &[Valuation]) -> u64 {
    let words = list.iter().flat_map(|clause| [1, clause.fixed, clause.values]).chain([0, 0]);
    words.fold(0, |so_far: u64, word| so_far.wrapping_mul(3).wrapping_add(word))
}

impl Sample {
    fn add(&mut self, call: Call) {
        if call.fits() {
            self.calls.push(call);
        }
    }

    /// A table with its number of marks, in one of its forms where it need not be reduced.
    fn any_table(&mut self) -> (u16, Vec<u32>) {
        let table = &self.tables[self.random.below(TABLES)];
        let form = self.random.pick(&[1, 1, 2]);
        (table.n, forms(&mut self.random, &table.bdd).swap_remove(form))
    }

    /// The table whole, damaged, cut, and over each limit; and two cases, the second perhaps with bits outside.
    fn table_calls(&mut self, at: usize) {
        let (n, bdd) = (self.tables[at].n, self.tables[at].bdd.clone());
        let nodes = bdd.renumbered();
        let count = nodes.len() / 3;
        let mut damaged = nodes.clone();
        let place = self.random.below(nodes.len());
        damaged[place] = damage(&mut self.random, &nodes, place);
        let cut = &nodes[..nodes.len() - 1];
        for (n, count, nodes) in [(n, count, &nodes[..]), (n, count, &damaged), (n, count, cut), (61, count, &nodes), (n, 4097, &nodes)] {
            self.add(Call::new("inspect", &[n.into()], &reading::inspect(n, count, nodes)).left(count, nodes));
            for case in [self.random.bits(n.min(60)), self.random.word() & self.random.word()] {
                let truth = || if nodes == damaged { reading::says(count, nodes, case) } else { bdd.eval_in(&to_case(n, case)) };
                let answer = reading::eval_in(n, count, nodes, case, truth);
                self.add(Call::new("eval_in", &[n.into(), case], &answer).left(count, nodes));
            }
        }
    }

    /// A reduced table, one that is not, one damaged, one loose, one cut, and one with other marks; of each its check and its whole walk.
    fn walk_calls(&mut self, at: usize) {
        let (n, bdd) = (self.tables[at].n, self.tables[at].bdd.clone());
        let made = forms(&mut self.random, &bdd);
        let (whole, copy) = (&made[at / 2 % 2], &made[2]);
        let mut damaged = whole.clone();
        damage_words(&mut self.random, &mut damaged);
        let loose = unreduced(&mut self.random, n, MOST_NODES);
        self.walk(n, whole.len() / 3, whole, || oracles_list(Extractor::Dnf, &bdd));
        for nodes in [copy, &damaged, &loose] {
            self.walk(n, nodes.len() / 3, nodes, || reading_extractors::listed(Extractor::Dnf, nodes.len() / 3, nodes));
        }
        let (cut, other) = (&whole[..whole.len() - 1], spoiled_n(&mut self.random, n));
        self.walk(n, whole.len() / 3, cut, Vec::new);
        self.walk(other, whole.len() / 3, whole, || oracles_list(Extractor::Dnf, &bdd));
    }

    /// The start's check and every step of the walk, and two steps more: of a walk that is refused, two.
    fn walk(&mut self, n: u16, count: usize, nodes: &[u32], list: impl FnOnce() -> Vec<Valuation>) {
        let start = reading_walk::walk_check(n, count, nodes);
        let list = if matches!(start, Answer::Given { .. }) { list() } else { vec![] };
        self.add(Call::new("walk_check", &[n.into()], &start).left(count, nodes));
        for k in 0..list.len() + 2 {
            let step = list.get(k).map_or(vec![0], |clause| vec![1, clause.fixed, clause.values]);
            self.add(Call::new("kth_step", &[n.into(), k as u64], &Answer::given(step)).left(count, nodes));
        }
        let mut whole = Call::new("walk", &[n.into(), list.len() as u64 + 2], &Answer::given(vec![noted(&list)]));
        if let Answer::Refused { number, place } = start {
            whole.reply = vec![number, place, noted(&list)];
        }
        self.add(whole.left(count, nodes));
    }

    /// Each entry on valuations that are well-formed more often than not.
    fn valuation_calls(&mut self) {
        let random = &mut self.random;
        let (fixed, mark) = (random.bits(60) & random.bits(60), random.pick(&[0, 1, 31, 32, 58, 59, 60, 61, 65_535]));
        let values = if random.once_in(4) { random.word() } else { random.word() & fixed };
        let (v, other) = (Valuation { fixed, values }, Valuation { fixed: fixed & !1, values: values & !1 });
        let words: Vec<u32> = (0..random.below(9)).map(|_| random.below(122) as u32).collect();
        let value = random.below(3) as u64;
        let one = [fixed, values];
        self.add(Call::new("is_empty", &one, &expected::is_empty(v)));
        self.add(Call::new("cardinality", &one, &expected::cardinality(v)));
        self.add(Call::new("last_fixed_variable", &one, &expected::last_fixed_variable(v)));
        self.add(Call::new("to_values", &one, &expected::to_values(v)));
        self.add(Call::new("from_values", &[], &expected::from_values(&words)).left(0, &words));
        let with_mark = [fixed, values, u64::from(mark)];
        self.add(Call::new("get_value", &with_mark, &expected::get_value(v, mark)));
        self.add(Call::new("has_value", &with_mark, &expected::has_value(v, mark)));
        self.add(Call::new("unset_value", &with_mark, &expected::unset_value(v, mark)));
        self.add(Call::new("set_value", &[&with_mark[..], &[value]].concat(), &expected::set_value(v, mark, value)));
        for (v, other) in [(v, other), (other, v), (v, v)] {
            let two = [v.fixed, v.values, other.fixed, other.values];
            self.add(Call::new("extends", &two, &expected::extends(v, other)));
            self.add(Call::new("eq", &two, &expected::eq(v, other)));
        }
    }

    /// About every second call is spoiled.
    fn operation(&mut self, operator: Operator) {
        let (n, left) = self.any_table();
        let right = loop {
            let (m, right) = self.any_table();
            if m == n {
                break right;
            }
        };
        let random = &mut self.random;
        let (mark, value) = (random.below(usize::from(n.max(1))) as u16, random.below(2) as u64);
        let space = Space { room: 2, out: 0, work: 0 };
        let mut call = Operation { operator, n, left: Table::whole(&left), right: Table::whole(&right), mark, value, space };
        let need = found_for(&call).size().max(2);
        call = call.with_space(random.pick(&[need, need + 1, (need - 1).max(2)]), random.below(3));
        let mut owned = Owned::new(&call);
        if random.coin() {
            owned.spoil(random);
        }
        let call = owned.call();
        let answer = reading_operators::answer(&call, || found_for(&call));
        let (n, mark, room) = (u64::from(call.n), u64::from(call.mark), call.space.room as u64);
        let numbers = match operator {
            Operator::Restrict => vec![n, mark, call.value, room],
            Operator::ForAll | Operator::Exists => vec![n, mark, room],
            Operator::Support | Operator::Cardinality => vec![n],
            _ => vec![n, room],
        };
        let mut made = Call::new(operator.name(), &numbers, &answer).left(call.left.count, call.left.nodes);
        if operator.is_binary() {
            made = made.right(call.right.count, call.right.nodes);
        }
        let lent = [(Lent::Nodes, call.space.out), (Lent::Work, call.space.work)];
        let made = made.lent(if operator.makes_table() { &lent } else { &lent[1..] }, &answer);
        self.add(made);
    }

    fn build(&mut self, builder: Builder) {
        let random = &mut self.random;
        let (n, many) = (random.below(61) as u16, random.below(5));
        let clauses: Vec<Valuation> = (0..many).map(|_| clause(random, n, 1 + many)).collect();
        let list = builder.words(&clauses);
        let whole = Build::whole(builder, n, &list);
        let need = expected_builders::runs_for(&whole).need();
        let call = whole.with_space(random.pick(&[need, need + 1, (need - 1).max(2)]), random.below(3));
        let mut owned = OwnedBuild::new(&call);
        if random.coin() {
            owned.spoil(random);
        }
        let call = owned.call();
        let answer = reading_builders::answer(&call, || expected_builders::runs_for(&call));
        let made = Call::new(builder.name(), &[u64::from(call.n), call.space.room as u64], &answer).list(call.count, call.list);
        self.add(made.lent(&[(Lent::Nodes, call.space.out), (Lent::Work, call.space.work)], &answer));
    }

    /// The list is the table's own, or that with a clause more or less.
    fn cover(&mut self) {
        let (n, nodes) = self.any_table();
        let random = &mut self.random;
        let mut list = oracles_list(Extractor::Dnf, &reduced(Table::whole(&nodes)));
        match random.below(4) {
            0 => list.push(clause(random, n, 2)),
            1 => list.truncate(list.len().saturating_sub(1)),
            _ => (),
        }
        let clauses = Builder::Dnf.words(&list);
        let call = Cover::whole(n, &nodes, &clauses);
        let need = expected_builders::runs_for(&call.build()).need();
        let call = call.with_space(random.pick(&[need, need, need + 1, (need - 1).max(2)]), random.below(3));
        let mut owned = OwnedCover::new(&call);
        if random.coin() {
            owned.spoil(random);
        }
        let call = owned.call();
        let runs = || expected_builders::runs_for(&call.build());
        let answer = reading_cover::answer(&call, runs, || expected_cover::first_difference_for(&call));
        let made = Call::new("check_cover", &[u64::from(call.n), call.room as u64], &answer);
        let made = made.left(call.table.count, call.table.nodes).list(call.clause_count, call.clauses);
        self.add(made.lent(&[(Lent::Work, call.work)], &answer));
    }

    /// A table that is whole, or spoiled in its marks, its count, its length or its words.
    fn spoiled_table(&mut self) -> (u16, usize, Vec<u32>) {
        let (n, mut nodes) = self.any_table();
        let (random, count) = (&mut self.random, nodes.len() / 3);
        match random.below(8) {
            0 => return (spoiled_n(random, n), count, nodes),
            1 => return (n, spoiled_count(random, count), nodes),
            2 => cut(random, &mut nodes),
            3 => damage_words(random, &mut nodes),
            _ => (),
        }
        (n, count, nodes)
    }

    fn extraction(&mut self, extractor: Extractor) {
        let (n, count, nodes) = self.spoiled_table();
        let random = &mut self.random;
        let mut call = Extraction { extractor, n, table: Table { count, nodes: &nodes }, out: random.below(25), work: 0 };
        call.work = call.least_work().min(1000) + random.below(3);
        if random.once_in(8) {
            call.work = shorter(random, call.work);
        }
        let list = || reading_extractors::listed(extractor, count, &nodes);
        let answer = reading_extractors::answer(&call, || reading_extractors::paths(extractor, count, &nodes), list);
        if matches!(answer, Answer::Given { .. }) && nodes == reduced(call.table).renumbered() {
            assert_eq!(list(), oracles_list(extractor, &reduced(call.table)), "the oracle's list");
        }
        let made = Call::new(extractor.name(), &[n.into()], &answer).left(count, &nodes);
        self.add(made.lent(&[(Lent::Clauses, call.out), (Lent::Work, call.work)], &answer));
    }

    fn short_list(&mut self) {
        let (n, count, nodes) = self.spoiled_table();
        let random = &mut self.random;
        let room = if random.once_in(8) { spoiled_room(random) } else { 2 + random.below(MOST_NODES) };
        let mut call = Shortening { n, table: Table { count, nodes: &nodes }, room, out: random.below(25), work: 5000 };
        if n <= 60 && count <= 4096 && room <= 4096 {
            call.work = call.least_work() + random.below(3);
        }
        if random.once_in(8) {
            call.work = shorter(random, call.work);
        }
        let answer = reading_short::answer(&call, || {
            let table = reduced(call.table);
            let followed = Rule::new(1024).follow(&table);
            assert_eq!(followed.list.as_ref(), Some(&oracles_short_list(&table)), "the oracle's short list");
            followed
        });
        let made = Call::new(shortening::NAME, &[n.into(), room as u64], &answer).left(count, &nodes);
        self.add(made.lent(&[(Lent::Clauses, call.out), (Lent::Work, call.work)], &answer));
    }

    /// A list or a table; a byte or a word of the header may be changed, the end cut, or a limit passed with the total that fits.
    fn sheet(&mut self) {
        let (n, nodes) = self.any_table();
        let random = &mut self.random;
        let list: Vec<Valuation> = (0..random.below(5)).map(|_| clause(random, n, 3)).collect();
        let kind = random.pick(&[DNF, CNF]);
        let mut bytes = if random.coin() { list_sheet(kind, n, &list) } else { table_sheet(n, &nodes) };
        match random.below(8) {
            0 => bytes[4] = 61,
            1 | 2 if bytes.len() > 32 => {
                let at = 32 + random.below(bytes.len() - 32);
                bytes[at] ^= 1 << random.below(8);
            }
            3 => {
                let at = random.below(32);
                bytes[at] ^= 1 << random.below(8);
            }
            4 => cut(random, &mut bytes),
            _ => (),
        }
        let (clauses, nodes) = (random.pick(&[10, 9, 8, 2]), random.pick(&[48, 40, 9]));
        let answer = reading_sheet::answer(&bytes, clauses, nodes);
        let words: Vec<u64> = bytes.iter().map(|byte| u64::from(*byte)).collect();
        let made = Call::new("read_sheet", &[], &answer).list(0, &words);
        self.add(made.lent(&[(Lent::Clauses, clauses), (Lent::Nodes, nodes)], &answer));
    }

    /// The list with fewer clauses; a tie gives the DNF.
    fn posting(&mut self) {
        let random = &mut self.random;
        let words: Vec<u64> = (0..random.below(16)).map(|_| random.word()).collect();
        let split = random.below(words.len() + 1);
        let (dnf, cnf) = words.split_at(split);
        let list = if dnf.len() / 2 <= cnf.len() / 2 { dnf } else { cnf };
        let part = &list[..list.len() / 2 * 2];
        let ends = |word: Option<&u64>| word.copied().unwrap_or(0);
        let answer = Answer::Given { values: vec![part.len() as u64, ends(part.first()), ends(part.last())], outs: vec![part.to_vec()] };
        let made = Call::new("choose_posting", &[split as u64], &answer).list(0, &words);
        self.add(made.lent(&[(Lent::Clauses, 18)], &answer));
    }
}
