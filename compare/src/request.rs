//! A request, the answer that is expected, and the library's answer with all that it was lent.
use crate::limits::{COUNT_WORDS, ROOM_PER_NODE};
use crate::random::Random;
use crate::reading::{self, Output};
use houayletan::lent;
use houayletan::Count;
use std::fmt::Write;

#[derive(Clone, Copy, Debug, Eq, Hash, PartialEq)]
pub enum Operation {
    Validate,
    ExactCardinality,
    ExactClauseCardinality,
    Cardinality,
    Size,
    NumVars,
    IsTrue,
    IsFalse,
    IsClause,
    IsValuation,
    SizePerVariable,
    NodeValuationWeights,
    CountAndWeights,
    Reduce,
    Not,
    Underapproximate,
    Overapproximate,
    UnderapproximateToSize,
    OverapproximateToSize,
    UnderapproximateToCardinality,
    OverapproximateToCardinality,
}

use Operation::*;

pub const OPERATIONS: [(Operation, &str, Output); 21] = [
    (Validate, "validate", Output::Nothing),
    (ExactCardinality, "exact_cardinality", Output::Nothing),
    (ExactClauseCardinality, "exact_clause_cardinality", Output::Nothing),
    (Cardinality, "cardinality", Output::Nothing),
    (Size, "size", Output::Nothing),
    (NumVars, "num_vars", Output::Nothing),
    (IsTrue, "is_true", Output::Nothing),
    (IsFalse, "is_false", Output::Nothing),
    (IsClause, "is_clause", Output::Nothing),
    (IsValuation, "is_valuation", Output::Nothing),
    (SizePerVariable, "size_per_variable", Output::Variables),
    (NodeValuationWeights, "node_valuation_weights", Output::Weights),
    (CountAndWeights, "count_and_weights", Output::Weights),
    (Reduce, "reduce", Output::Diagram),
    (Not, "not", Output::Diagram),
    (Underapproximate, "underapproximate", Output::Diagram),
    (Overapproximate, "overapproximate", Output::Diagram),
    (UnderapproximateToSize, "underapproximate_to_size", Output::Diagram),
    (OverapproximateToSize, "overapproximate_to_size", Output::Diagram),
    (UnderapproximateToCardinality, "underapproximate_to_cardinality", Output::Diagram),
    (OverapproximateToCardinality, "overapproximate_to_cardinality", Output::Diagram),
];

#[derive(Clone, Debug)]
pub enum Argument {
    None,
    List(Vec<u32>),
    Size(u32),
    Count([u32; COUNT_WORDS]),
}

#[derive(Clone, Debug)]
pub struct Request {
    /// Place in `OPERATIONS`.
    pub operation: usize,
    pub words: Vec<u32>,
    pub argument: Argument,
    /// Of a size or a count; no otherwise.
    pub as_is: bool,
    pub room: usize,
    pub output: usize,
    /// Of what room and output hold at first.
    pub seed: u32,
}

/// What a call gives, laid flat: a count's words, an f64's bits, an amount, a yes as 1, nodes, or nodes and trials.
#[derive(Clone, Debug, Eq, PartialEq)]
pub struct Reply {
    pub number: u32,
    pub place: usize,
    pub nodes: usize,
    pub vars: u32,
    pub values: Vec<u64>,
    /// The words of the output that hold the result.
    pub written: Vec<u32>,
}

impl Request {
    pub fn operation(&self) -> Operation {
        OPERATIONS[self.operation].0
    }
    pub fn output_kind(&self) -> Output {
        OPERATIONS[self.operation].2
    }
    fn list(&self) -> &[u32] {
        match &self.argument {
            Argument::List(list) => list,
            _ => &[],
        }
    }
}

fn counted(c: lent::Counted) -> (lent::Verdict, Vec<u64>, usize) {
    (c.verdict, c.count.words().map(|w| w as u64).to_vec(), 0)
}

fn diagram(d: lent::Diagram) -> (lent::Verdict, Vec<u64>, usize) {
    (d.verdict, vec![d.nodes as u64], 3 * d.nodes)
}

fn amount(a: lent::Amount) -> (lent::Verdict, Vec<u64>, usize) {
    (a.verdict, vec![a.amount as u64], 0)
}

fn approximation(t: lent::Approximation) -> (lent::Verdict, Vec<u64>, usize) {
    (t.verdict, vec![t.nodes as u64, t.trials as u64], 3 * t.nodes)
}

fn call(request: &Request, w: &[u32], list: &[u32], room: &mut [u32], out: &mut [u32]) -> (lent::Verdict, Vec<u64>, usize) {
    let as_is = request.as_is;
    let size = if let Argument::Size(t) = request.argument { t } else { 0 };
    let count = if let Argument::Count(k) = request.argument { Count::new(k) } else { Count::ZERO };
    match request.operation() {
        Validate => (lent::validate(w, room), vec![], 0),
        ExactCardinality => counted(lent::exact_cardinality(w, room)),
        ExactClauseCardinality => counted(lent::exact_clause_cardinality(w, room)),
        NodeValuationWeights => {
            let verdict = lent::node_valuation_weights(w, room, out);
            (verdict, vec![], COUNT_WORDS * verdict.nodes)
        }
        CountAndWeights => {
            let (verdict, count, _) = counted(lent::count_and_weights(w, room, out));
            (verdict, count, COUNT_WORDS * verdict.nodes)
        }
        Reduce => diagram(lent::reduce(w, room, out)),
        Cardinality => {
            let c = lent::cardinality(w, room);
            (c.verdict, vec![c.count.to_bits()], 0)
        }
        Size => amount(lent::size(w, room)),
        NumVars => amount(lent::num_vars(w, room)),
        IsTrue => amount(lent::is_true(w, room)),
        IsFalse => amount(lent::is_false(w, room)),
        IsClause => amount(lent::is_clause(w, room)),
        IsValuation => amount(lent::is_valuation(w, room)),
        SizePerVariable => {
            let verdict = lent::size_per_variable(w, room, out);
            (verdict, vec![], verdict.vars as usize)
        }
        Not => diagram(lent::not(w, room, out)),
        Underapproximate => diagram(lent::underapproximate(w, list, room, out)),
        Overapproximate => diagram(lent::overapproximate(w, list, room, out)),
        UnderapproximateToSize => approximation(lent::underapproximate_to_size(w, size, as_is, room, out)),
        OverapproximateToSize => approximation(lent::overapproximate_to_size(w, size, as_is, room, out)),
        UnderapproximateToCardinality => approximation(lent::underapproximate_to_cardinality(w, count, as_is, room, out)),
        OverapproximateToCardinality => approximation(lent::overapproximate_to_cardinality(w, count, as_is, room, out)),
    }
}

/// What stands at place i of a lent buffer at first (tests/c/lent.h has the same).
pub fn filling(seed: u32, i: usize) -> u32 {
    seed.wrapping_add((i as u32).wrapping_mul(2654435761))
}

const GUARD: usize = 16;

/// A buffer with guard words on both sides.
pub struct Lent {
    all: Vec<u32>,
    len: usize,
    seed: u32,
}

impl Lent {
    pub fn new(len: usize, seed: u32) -> Lent {
        let guard = |i: usize| !filling(seed, i) ^ 0x5a5a5a5a;
        let all = (0..GUARD).map(guard).chain((0..len).map(|i| filling(seed, i))).chain((GUARD..2 * GUARD).map(guard));
        Lent { all: all.collect(), len, seed }
    }
    pub fn of(words: &[u32], seed: u32) -> Lent {
        let mut lent = Lent::new(words.len(), seed);
        lent.words().copy_from_slice(words);
        lent
    }
    pub fn words(&mut self) -> &mut [u32] {
        &mut self.all[GUARD..GUARD + self.len]
    }
    pub fn guarded(&self) -> bool {
        let fresh = |i: usize, w: &u32| *w == !filling(self.seed, i) ^ 0x5a5a5a5a;
        let (before, after) = (&self.all[..GUARD], &self.all[GUARD + self.len..]);
        before.iter().enumerate().all(|(i, w)| fresh(i, w)) && after.iter().enumerate().all(|(i, w)| fresh(GUARD + i, w))
    }
    pub fn kept_from(&mut self, from: usize) -> bool {
        let seed = self.seed;
        self.words().iter().enumerate().skip(from).all(|(i, w)| *w == filling(seed, i))
    }
}

/// Whether so many words at the front are zero, and the rest is as it was.
pub fn zero_and_kept(lent: &mut Lent, zero: usize) -> bool {
    lent.words().get(..zero).is_some_and(|words| words.iter().all(|w| *w == 0)) && lent.kept_from(zero)
}

/// The library's answer to a request, or what it did wrong to what it was lent.
pub fn ask(request: &Request) -> Result<Reply, &'static str> {
    let mut words = Lent::of(&request.words, request.seed.wrapping_add(1));
    let mut list = Lent::of(request.list(), request.seed.wrapping_add(2));
    let mut room = Lent::new(request.room, request.seed);
    let mut output = Lent::new(request.output, request.seed.wrapping_add(3));
    let (verdict, values, written) = call(request, words.words(), list.words(), room.words(), output.words());
    if ![&words, &list, &room, &output].iter().all(|l| l.guarded()) {
        return Err("a guard word has changed");
    }
    if words.words() != request.words || list.words() != request.list() {
        return Err("an input has changed");
    }
    let refused = verdict.number != 0;
    let zero = if (1..=5).contains(&verdict.number) { 0 } else { ROOM_PER_NODE * (request.words.len() / 3).max(2) };
    if !zero_and_kept(&mut room, zero) {
        return Err("the room afterwards");
    }
    let written = if refused { 0 } else { written };
    if written > request.output || !output.kept_from(written) {
        return Err("the output beyond the result");
    }
    Ok(Reply {
        number: verdict.number,
        place: verdict.place,
        nodes: verdict.nodes,
        vars: verdict.vars,
        values,
        written: output.words()[..written].to_vec(),
    })
}

fn sum_of(words: &[u32]) -> u64 {
    let bytes = words.iter().flat_map(|w| w.to_le_bytes());
    bytes.fold(0xcbf29ce484222325, |sum, b| (sum ^ b as u64).wrapping_mul(0x100000001b3))
}

/// A result in a line: the words, or where they are many their sum.
pub fn written_form(words: &[u32]) -> String {
    if words.len() > 60 { format!(" # {}", sum_of(words)) } else { words.iter().map(|w| format!(" {w}")).collect() }
}

/// As a line of tests/c/replay.txt; tests/c/replay.c says how it is laid out.
pub fn line(request: &Request, reply: &Reply) -> String {
    let mut line = format!("{} {}", OPERATIONS[request.operation].1, request.words.len());
    let mut put = |x: u64| write!(line, " {x}").unwrap();
    request.words.iter().for_each(|w| put(*w as u64));
    match &request.argument {
        Argument::None => (),
        Argument::List(list) => [list.len() as u64].into_iter().chain(list.iter().map(|p| *p as u64)).for_each(&mut put),
        Argument::Size(t) => put(*t as u64),
        Argument::Count(k) => k.iter().for_each(|w| put(*w as u64)),
    }
    if matches!(request.argument, Argument::Size(_) | Argument::Count(_)) {
        put(request.as_is as u64);
    }
    put(request.room as u64);
    put(request.output as u64);
    put(request.seed as u64);
    line.push_str(" =");
    let mut put = |x: u64| write!(line, " {x}").unwrap();
    [reply.number as u64, reply.place as u64, reply.nodes as u64, reply.vars as u64].into_iter().for_each(&mut put);
    put(reply.values.len() as u64);
    reply.values.iter().for_each(|x| put(*x));
    put(reply.written.len() as u64);
    line.push_str(&written_form(&reply.written));
    line
}

/// Lengths of room and output: mostly exact, often one short, sometimes longer, nothing, or far too short.
pub fn lengths(random: &mut Random, words: usize, output: Output) -> (usize, usize) {
    let n = words / 3;
    let asked = [ROOM_PER_NODE * n.max(2), reading::output_asked(output, n)];
    // a faulty length hides all later refusals, so most requests have none
    let faulty = random.one_in(6);
    let [room, output] = asked.map(|exact| match random.below(if faulty { 8 } else { 3 }) {
        0 | 1 => exact,
        2 => exact + random.from_to(1, 40),
        3..=5 => exact.saturating_sub(1),
        6 => random.below(exact + 1),
        _ => 0,
    });
    (room, output)
}
