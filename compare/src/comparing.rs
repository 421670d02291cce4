//! Two diagrams compared. The crate has no such operation, so what is expected is a model of document 02's E1: a set of the pairs that are
//! reached, and for each the three counts and whether its nodes differ. For one request in `BY_AND` the counts are also held to those of
//! the crate's text, over the stand-in's `and` and `not` (bench/rust_text).
use crate::generate;
use crate::limits::{COUNT_WORDS, MOST_NODES, PAIR_WORDS, ROOM_PER_NODE};
use crate::random::Random;
use crate::reading::{self, Output, Refused};
use crate::request::{zero_and_kept, Lent};
use houayletan::{lent, Count, RefusedComparison, Refusal};
use num_bigint::BigUint;
use rust_text::Bdd;
use std::collections::{BTreeMap, HashMap};

const OTHER_VARIABLES: u32 = 31;
const TOO_MANY_PAIRS: u32 = 32;

/// The counts of one request in so many are held to the crate's text.
const BY_AND: u64 = 4;

/// More pairs than these are not counted out: such a request gets a table that is too short.
const MOST_PAIRS: usize = 20_000;

#[derive(Clone, Debug)]
struct Request {
    first: Vec<u32>,
    second: Vec<u32>,
    room: usize,
    table: usize,
    /// Of what room and table hold at first.
    seed: u32,
}

/// What two diagrams are beside each other.
#[derive(Clone, Debug, Eq, PartialEq)]
struct Told {
    pairs: usize,
    vars: u32,
    first: BigUint,
    second: BigUint,
    both: BigUint,
    /// As a number, variable 0 its highest bit.
    smallest: Option<BigUint>,
}

/// What is told, or the refusal and which diagram it is about, 0 where it is about none.
type Answer = Result<Told, (Refused, u32)>;

// ---- the model

#[derive(Clone)]
struct Worth {
    level: u32,
    /// In the first only, in the second only, in both, over the variables from the level on.
    counts: [BigUint; 3],
    children: Option<[(u32, u32); 2]>,
}

/// The pairs that are reached, with what each is worth.
struct Model<'a> {
    words: [&'a [u32]; 2],
    worths: HashMap<(u32, u32), Worth>,
}

impl Model<'_> {
    fn var(&self, side: usize, p: u32) -> u32 {
        // a terminal has the variable count, also where node 1 is not in the array
        self.words[side][if p < 2 { 0 } else { 3 * p as usize }]
    }

    fn child(&self, side: usize, p: u32, level: u32, bit: usize) -> u32 {
        if self.var(side, p) == level { self.words[side][3 * p as usize + 1 + bit] } else { p }
    }

    /// Goes through the pairs from one on. False where there are too many.
    fn walk(&mut self, pair: (u32, u32)) -> bool {
        if self.worths.contains_key(&pair) {
            return true;
        }
        let level = self.var(0, pair.0).min(self.var(1, pair.1));
        if pair.0 < 2 && pair.1 < 2 {
            let counts = [(1, 0), (0, 1), (1, 1)].map(|ends| BigUint::from((pair == ends) as u32));
            self.worths.insert(pair, Worth { level, counts, children: None });
            return self.worths.len() <= MOST_PAIRS;
        }
        let children = [0, 1].map(|bit| (self.child(0, pair.0, level, bit), self.child(1, pair.1, level, bit)));
        if !children.iter().all(|child| self.walk(*child)) {
            return false;
        }
        let part = |i: usize, child: &(u32, u32)| {
            let worth = &self.worths[child];
            &worth.counts[i] << (worth.level - level - 1)
        };
        let counts = [0, 1, 2].map(|i| part(i, &children[0]) + part(i, &children[1]));
        self.worths.insert(pair, Worth { level, counts, children: Some(children) });
        self.worths.len() <= MOST_PAIRS
    }

    fn differs(&self, pair: &(u32, u32)) -> bool {
        self.worths[pair].counts[..2].iter().any(|count| *count != BigUint::default())
    }

    /// Of a pair that differs: 0 wherever that still leads to a difference.
    fn smallest(&self, mut pair: (u32, u32), vars: u32) -> BigUint {
        let mut number = BigUint::default();
        while let Some([low, high]) = self.worths[&pair].children {
            let turns = !self.differs(&low);
            if turns {
                number += BigUint::from(1u32) << (vars - 1 - self.worths[&pair].level);
            }
            pair = if turns { high } else { low };
        }
        number
    }
}

/// None where there are too many pairs to be counted out.
fn told(first: &[u32], second: &[u32]) -> Option<Told> {
    let vars = first[0];
    let mut model = Model { words: [first, second], worths: HashMap::new() };
    let roots = (first.len() as u32 / 3 - 1, second.len() as u32 / 3 - 1);
    if !model.walk(roots) {
        return None;
    }
    let root = &model.worths[&roots];
    let [first, second, both] = [0, 1, 2].map(|i| &root.counts[i] << root.level);
    let smallest = model.differs(&roots).then(|| model.smallest(roots, vars));
    Some(Told { pairs: model.worths.len(), vars, first, second, both, smallest })
}

/// The rows in their order. `told` is what both say where they are accepted and of one variable count.
fn expected(request: &Request, told: Option<Told>) -> Answer {
    for (which, words) in [&request.first, &request.second].into_iter().enumerate() {
        reading::check(words, request.room, Output::Nothing, 0).map_err(|refused| (refused, which as u32))?;
    }
    if request.first[0] != request.second[0] {
        return Err(((OTHER_VARIABLES, 0), 0));
    }
    match told {
        Some(told) if told.pairs <= request.table / PAIR_WORDS => Ok(told),
        _ => Err(((TOO_MANY_PAIRS, 0), 0)),
    }
}

/// Whether the counts are those of the crate's text.
fn held_to_and(request: &Request, told: &Told) -> bool {
    let [first, second] = [&request.first, &request.second].map(|words| Bdd::from_words(words));
    let count = |a: &Bdd, b: &Bdd| a.and(b).exact_cardinality();
    count(&first, &second.not()) == told.first && count(&second, &first.not()) == told.second && count(&first, &second) == told.both
}

// ---- the library

fn big(count: Count) -> BigUint {
    BigUint::from_slice(&count.words())
}

fn flat(r: lent::Compared) -> Result<Answer, &'static str> {
    let lent::Verdict { number, place, nodes, vars } = r.verdict;
    if number != 0 {
        let nothing = [r.first, r.second, r.both, r.smallest].iter().all(Count::is_zero) && (nodes, vars, r.differ) == (0, 0, 0);
        return if nothing { Ok(Err(((number, place), r.which))) } else { Err("a refusal tells something") };
    }
    match (place, r.which, r.differ) {
        (0, 0, 0) if r.smallest.is_zero() => (),
        (0, 0, 1) => (),
        _ => return Err("place, which or differ of an answer"),
    }
    let smallest = (r.differ == 1).then(|| big(r.smallest));
    Ok(Ok(Told { pairs: nodes, vars, first: big(r.first), second: big(r.second), both: big(r.both), smallest }))
}

/// How many words of the room are zero after a check: of a diagram of so many words, with this number.
fn zeroed(number: u32, words: &[u32]) -> usize {
    if (1..=5).contains(&number) { 0 } else { ROOM_PER_NODE * (words.len() / 3).max(2) }
}

/// How many words of room and table are zero after an answer.
fn left(request: &Request, answer: &Answer) -> (usize, usize) {
    let whole = PAIR_WORDS * (request.table / PAIR_WORDS);
    let both = zeroed(0, &request.first).max(zeroed(0, &request.second));
    match answer {
        Ok(_) | Err(((TOO_MANY_PAIRS, _), _)) => (both, whole),
        Err(((OTHER_VARIABLES, _), _)) => (both, 0),
        Err(((number, _), 0)) => (zeroed(*number, &request.first), 0),
        Err(((number, _), _)) => (zeroed(0, &request.first).max(zeroed(*number, &request.second)), 0),
    }
}

/// The library's answer, or what it did wrong to what it was lent.
fn ask(request: &Request) -> Result<Answer, &'static str> {
    let mut first = Lent::of(&request.first, request.seed.wrapping_add(1));
    let mut second = Lent::of(&request.second, request.seed.wrapping_add(2));
    let mut room = Lent::new(request.room, request.seed);
    let mut table = Lent::new(request.table, request.seed.wrapping_add(3));
    let answer = flat(lent::compare(first.words(), second.words(), room.words(), table.words()))?;
    if ![&first, &second, &room, &table].iter().all(|l| l.guarded()) {
        return Err("a guard word has changed");
    }
    if first.words() != request.first || second.words() != request.second {
        return Err("an input has changed");
    }
    let (of_room, of_table) = left(request, &answer);
    if !zero_and_kept(&mut room, of_room) {
        return Err("the room afterwards");
    }
    if !zero_and_kept(&mut table, of_table) {
        return Err("the table afterwards");
    }
    Ok(answer)
}

/// By the function that allocates for itself: it lends enough, so that 5 and 32 say nothing of it.
fn held_to(request: &Request, expected: &Answer) -> Result<(), String> {
    let told = houayletan::compare(&request.first, &request.second).map(|c| Told {
        pairs: c.pairs,
        vars: c.vars,
        first: big(c.first),
        second: big(c.second),
        both: big(c.both),
        smallest: c.smallest.map(|s| big(s.number())),
    });
    let wanted = expected.clone().map_err(|((number, place), which)| RefusedComparison {
        refusal: Refusal { number, place },
        which: (number != OTHER_VARIABLES).then_some(which),
    });
    if told == wanted { Ok(()) } else { Err(format!("by the allocating function: expected {wanted:?}, got {told:?}")) }
}

// ---- requests

/// Few nodes mostly, so that pairs are few enough; now and then the most.
fn most_nodes(random: &mut Random) -> usize {
    match random.below(100) {
        0..=49 => random.from_to(3, 12),
        50..=84 => random.from_to(8, 64),
        85..=96 => random.from_to(40, 300),
        97..=98 => random.from_to(300, 2000),
        _ => random.from_to(2000, MOST_NODES),
    }
}

pub fn set_vars(words: &mut [u32], vars: u32) {
    words[0] = vars;
    if words.len() > 3 {
        words[3] = vars;
    }
}

/// Another diagram, of the same variable count, or the same one in another form, cut, negated or with a link changed.
pub fn beside(random: &mut Random, first: &mut Vec<u32>, most: usize) -> Vec<u32> {
    let n = first.len() / 3;
    let some_node = |random: &mut Random| vec![random.from_to(2, n - 1) as u32];
    match random.below(10) {
        0 => generate::permuted(random, first),
        1 => reading::reduce(first),
        2 => reading::not(first),
        3 if n > 2 => reading::cut(first, &some_node(random), 0),
        4 if n > 2 => reading::cut(first, &some_node(random), 1),
        5 if n > 2 => {
            let mut second = first.clone();
            second[3 * random.from_to(2, n - 1) + random.from_to(1, 2)] = random.below(2) as u32;
            reading::renumber(&second)
        }
        _ => {
            let mut second = generate::diagram(random, most).1;
            let vars = first[0].max(second[0]);
            set_vars(first, vars);
            set_vars(&mut second, vars);
            second
        }
    }
}

fn any_diagrams(random: &mut Random, most: usize) -> (Vec<u32>, Vec<u32>) {
    let mut first = generate::diagram(random, most).1;
    let mut second = beside(random, &mut first, most);
    match random.below(24) {
        0 | 1 => first = generate::damaged(random, first),
        2 | 3 => second = generate::damaged(random, second),
        4 => (first, second) = (generate::damaged(random, first), generate::damaged(random, second)),
        5 => second = generate::diagram(random, most).1,
        6 => first.truncate(random.below(4)),
        7 => second.truncate(random.below(4)),
        8 if random.one_in(4) => second.resize(3 * random.from_to(MOST_NODES, MOST_NODES + 1), 1),
        _ => (),
    }
    if random.one_in(2) { (first, second) } else { (second, first) }
}

/// Exact mostly, one word more or less, more, less, or nothing.
pub fn any_length(random: &mut Random, exact: usize) -> usize {
    match random.below(16) {
        0 | 1 => exact.saturating_sub(1),
        2 => exact + 1,
        3 => random.below(exact + 1),
        4 => 0,
        5..=8 => exact + random.from_to(1, 200),
        _ => exact,
    }
}

fn any_request(random: &mut Random, most: usize) -> (Request, Option<Told>) {
    let (first, second) = any_diagrams(random, most);
    let accepted = |words: &[u32]| reading::check(words, usize::MAX, Output::Nothing, 0).is_ok();
    let alike = accepted(&first) && accepted(&second) && first[0] == second[0];
    let told = if alike { told(&first, &second) } else { None };
    let larger = first.len().max(second.len()) / 3;
    // a faulty length hides all later refusals, so most requests have none
    let exact = ROOM_PER_NODE * larger.max(2);
    let room = if random.one_in(6) { any_length(random, exact) } else { exact + random.pick(&[0, 0, 1, 30]) };
    let table = match &told {
        Some(told) => any_length(random, PAIR_WORDS * told.pairs),
        None if alike => random.below(PAIR_WORDS * MOST_PAIRS),
        None => random.below(1000),
    };
    (Request { first, second, room, table, seed: random.word() }, told)
}

/// As a line of tests/c/replay.txt; tests/c/replay.c says how it is laid out.
fn line(request: &Request, answer: &Answer) -> String {
    let join = |numbers: &[u32]| numbers.iter().map(|x| format!(" {x}")).collect::<String>();
    let (first, second) = (&request.first, &request.second);
    let asked = format!("compare {}{} {}{} {} {} {}", first.len(), join(first), second.len(), join(second), request.room, request.table, request.seed);
    let count = |count: &BigUint| {
        let mut words = count.to_u32_digits();
        words.resize(COUNT_WORDS, 0);
        join(&words)
    };
    match answer {
        Ok(Told { pairs, vars, first, second, both, smallest }) => {
            let shown = smallest.clone().unwrap_or_default();
            let counts: String = [first, second, both, &shown].into_iter().map(count).collect();
            format!("{asked} = 0 0 {pairs} {vars} 0 {}{counts}", smallest.is_some() as u32)
        }
        Err(((number, place), which)) => format!("{asked} = {number} {place} 0 0 {which} 0{}", count(&BigUint::default()).repeat(4)),
    }
}

#[derive(Default)]
struct Tally {
    answered: u64,
    same: u64,
    safe: u64,
    by_and: u64,
    pairs: usize,
    all_pairs: u64,
    many_vars: u64,
    refused: BTreeMap<(u32, u32), u64>,
}

/// As many requests as that. Ends the program at the first difference.
pub fn compare(seed: u64, requests: u64) {
    let random = &mut Random(seed);
    let mut tally = Tally::default();
    for i in 0..requests {
        let most = most_nodes(random);
        let (request, told) = any_request(random, most);
        let expected = expected(&request, told);
        let said = ask(&request);
        let mut fault = if said.as_ref() == Ok(&expected) { Ok(()) } else { Err(format!("got {said:?}")) };
        let short = matches!(expected, Err(((5 | TOO_MANY_PAIRS, _), _)));
        if fault.is_ok() && !short && i % 2 == 0 {
            tally.safe += 1;
            fault = held_to(&request, &expected);
        }
        if let (Ok(told), 0) = (&expected, i % BY_AND) {
            tally.by_and += 1;
            assert!(held_to_and(&request, told), "the model is wrong: {}", line(&request, &expected));
        }
        if let Err(fault) = fault {
            println!("DIFFERENT, after {i} comparisons\nexpected {expected:?}\n{fault}\n{}", line(&request, &expected));
            std::process::exit(1);
        }
        match expected {
            Ok(told) => {
                tally.answered += 1;
                tally.same += told.smallest.is_none() as u64;
                tally.pairs = tally.pairs.max(told.pairs);
                tally.all_pairs += told.pairs as u64;
                tally.many_vars += (told.vars > 255) as u64;
            }
            Err(((number, _), which)) => *tally.refused.entry((number, which)).or_default() += 1,
        }
    }
    println!("\ncomparisons: {requests} requests, no difference; {} of them by the allocating function too", tally.safe);
    println!("answered: {}, {} of them where there is no difference, {} with more than 255 variables", tally.answered, tally.same, tally.many_vars);
    println!("pairs: {} in all, {} at most; counts held to the Rust text's: {}", tally.all_pairs, tally.pairs, tally.by_and);
    println!("\n| refusal | of the first, or of none | of the second |\n|--:|--:|--:|");
    let mut numbers: Vec<u32> = tally.refused.keys().map(|(number, _)| *number).collect();
    numbers.dedup();
    for number in numbers {
        let times = |which: u32| tally.refused.get(&(number, which)).copied().unwrap_or(0);
        println!("| {number} | {} | {} |", times(0), times(1));
    }
}

/// Small ones, for tests/c/replay.txt.
pub fn store(seed: u64, requests: u64) {
    let random = &mut Random(seed);
    for i in 0..requests {
        let most = if i % 50 == 0 { random.from_to(100, 300) } else { random.from_to(3, 14) };
        let (request, told) = loop {
            let (request, told) = any_request(random, most);
            if request.first.len().max(request.second.len()) / 3 <= most + 5 {
                break (request, told);
            }
        };
        println!("{}", line(&request, &expected(&request, told)));
    }
}
