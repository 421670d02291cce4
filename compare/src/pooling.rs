//! Calls to pools. The crate has no such thing, so what is expected is a model of document 02's E6 and E7: whether words are a pool by its own
//! sentences, over sets; what each slot holds as a reduced array; from these arrays every word of table and slots; and of the row what the
//! crate's `size_per_variable` says of the one table and its `support_set` of each array. Beside it, what each slot holds is kept by the calls
//! and their answers alone.
use crate::comparing::{any_length, beside, set_vars};
use crate::generate;
use crate::limits::{MOST_NODES, MOST_VARS, ROOM_PER_NODE, SLOTS};
use crate::random::Random;
use crate::reading::{self, Output, Refused};
use crate::request::{written_form, zero_and_kept, Lent};
use houayletan::{lent, Pool, Refusal, Signal};
use rust_text::Bdd;
use std::collections::{BTreeMap, BTreeSet};

const NO_SUCH_SLOT: u32 = 33;
const WRONG_SLOT: u32 = 34;
const OTHER_POOL: u32 = 35;
const POOL_FULL: u32 = 36;
const SHORT_ROW: u32 = 37;
const NO_POOL: u32 = 46;
const OTHER_ROW: u32 = 47;

#[derive(Clone, Copy, Debug, Eq, Ord, PartialEq, PartialOrd)]
enum Call {
    Add,
    Drop,
    Read,
    Summarize,
}

const CALLS: [(Call, &str); 4] =
    [(Call::Add, "pool_add"), (Call::Drop, "pool_drop"), (Call::Read, "pool_read"), (Call::Summarize, "pool_summarize")];

#[derive(Clone, Debug)]
struct Request {
    table: Vec<u32>,
    slots: Vec<u32>,
    /// Two words a record; none of a read.
    row: Vec<u32>,
    call: Call,
    slot: usize,
    /// Of an add.
    words: Vec<u32>,
    room: usize,
    /// Of a read.
    output: usize,
    /// Of what room and output hold at first.
    seed: u32,
}

/// What is said, and the words afterwards: table, slots, row and what was written to the output.
#[derive(Clone, Debug, Eq, PartialEq)]
struct Answer {
    /// Nodes and variables.
    said: Result<(usize, u32), Refused>,
    table: Vec<u32>,
    slots: Vec<u32>,
    row: Vec<u32>,
    written: Vec<u32>,
}

// ---- the model

fn node(table: &[u32], p: usize) -> [u32; 3] {
    [0, 1, 2].map(|i| table[3 * p + i])
}

/// The places after the terminals that are not free.
fn inner(table: &[u32]) -> BTreeSet<usize> {
    (2..table.len() / 3).filter(|p| node(table, *p) != [0; 3]).collect()
}

fn reached(table: &[u32], roots: impl Iterator<Item = usize>) -> BTreeSet<usize> {
    let (mut met, mut todo) = (BTreeSet::new(), Vec::from_iter(roots));
    while let Some(p) = todo.pop() {
        if met.insert(p) && p >= 2 {
            todo.extend(node(table, p)[1..].iter().map(|link| *link as usize));
        }
    }
    met
}

fn roots(slots: &[u32]) -> impl Iterator<Item = usize> + '_ {
    slots.iter().filter(|word| **word != 0).map(|word| *word as usize - 1)
}

fn well_formed(table: &[u32], slots: &[u32]) -> bool {
    let places = table.len() / 3;
    if table.len() % 3 != 0 || !(2..=MOST_NODES).contains(&places) || slots.len() != SLOTS {
        return false;
    }
    let v = table[0];
    if node(table, 0) != [v, 0, 0] || node(table, 1) != [v, 1, 1] || v as usize > MOST_VARS {
        return false;
    }
    let inner = inner(table);
    let known = |p: usize| p < 2 || inner.contains(&p);
    let right = |p: &usize| {
        let [var, low, high] = node(table, *p);
        let ordered = |link: u32| known(link as usize) && var < table[3 * link as usize];
        var < v && low != high && ordered(low) && ordered(high)
    };
    roots(slots).all(known)
        && inner.iter().all(right)
        && inner.iter().map(|p| node(table, *p)).collect::<BTreeSet<_>>().len() == inner.len()
        && inner.is_subset(&reached(table, roots(slots)))
}

/// The reduced array of what stands at a place of a pool's table.
fn array(table: &[u32], root: usize) -> Vec<u32> {
    if root < 2 {
        return reading::constant(table[0], root == 1);
    }
    // its own nodes as a diagram, the root last
    let own: Vec<usize> = reached(table, [root].into_iter()).into_iter().filter(|p| *p >= 2 && *p != root).chain([root]).collect();
    let place: BTreeMap<u32, u32> = own.iter().enumerate().map(|(i, p)| (*p as u32, i as u32 + 2)).chain([(0, 0), (1, 1)]).collect();
    let mut words = reading::constant(table[0], true);
    for p in own {
        let [var, low, high] = node(table, p);
        words.extend([var, place[&low], place[&high]]);
    }
    reading::reduce(&words)
}

/// By slot.
type Held = BTreeMap<usize, Vec<u32>>;

fn held(table: &[u32], slots: &[u32]) -> Held {
    (0..SLOTS).filter(|k| slots[*k] != 0).map(|k| (k, array(table, slots[k] as usize - 1))).collect()
}

/// The nodes of all arrays, each once and in this order, and the words of the slots.
fn one_table(v: u32, held: &Held) -> (Vec<u32>, Vec<u32>) {
    let (mut table, mut slots, mut known) = (reading::constant(v, true), vec![0; SLOTS], BTreeMap::new());
    for (slot, array) in held {
        let mut became = vec![0, 1];
        for p in 2..array.len() / 3 {
            let [var, low, high] = node(array, p);
            let new = [var, became[low as usize], became[high as usize]];
            let next = table.len() as u32 / 3;
            let at = *known.entry(new).or_insert(next);
            if at == next {
                table.extend(new);
            }
            became.push(at);
        }
        slots[*slot] = became[array.len() / 3 - 1] + 1;
    }
    (table, slots)
}

/// The records of all variables, two words each.
fn summary(v: u32, held: &Held) -> Vec<u32> {
    let mut row = vec![0; 2 * v as usize];
    for (var, nodes) in Bdd::from_words(&one_table(v, held).0).size_per_variable() {
        row[2 * var.to_index()] = nodes as u32;
    }
    for var in held.values().flat_map(|array| Bdd::from_words(array).support_set()) {
        row[2 * var.to_index() + 1] += 1;
    }
    row
}

/// The rows in their order, and what is held after an answer.
fn says(request: &Request) -> Result<(usize, u32, Held), Refused> {
    let Request { table, slots, slot, words, .. } = request;
    if !well_formed(table, slots) {
        return Err((NO_POOL, 0));
    }
    if request.call != Call::Read {
        if request.row.len() / 2 < table[0] as usize {
            return Err((SHORT_ROW, 0));
        }
        let now = held(table, slots);
        if request.call == Call::Summarize {
            return Ok((table.len() / 3, table[0], now));
        }
        if !request.row.starts_with(&summary(table[0], &now)) {
            return Err((OTHER_ROW, 0));
        }
    }
    if request.call == Call::Add {
        reading::check(words, request.room, Output::Nothing, 0)?;
    }
    if *slot >= SLOTS {
        return Err((NO_SUCH_SLOT, 0));
    }
    if (slots[*slot] != 0) == (request.call == Call::Add) {
        return Err((WRONG_SLOT, 0));
    }
    let (v, places) = (table[0], table.len() / 3);
    let mut held = held(table, slots);
    match request.call {
        Call::Add if words[0] != v => return Err((OTHER_POOL, 0)),
        Call::Add => _ = held.insert(*slot, reading::reduce(words)),
        Call::Drop => _ = held.remove(slot),
        Call::Read if request.room < ROOM_PER_NODE * places => return Err((5, 0)),
        Call::Read if request.output < held[slot].len() => return Err((4, 0)),
        Call::Read => return Ok((held[slot].len() / 3, v, held)),
        Call::Summarize => unreachable!(),
    }
    let nodes = one_table(v, &held).0.len() / 3;
    if nodes > places { Err((POOL_FULL, 0)) } else { Ok((nodes, v, held)) }
}

fn expected(request: &Request) -> Answer {
    let (mut table, mut slots, mut row, mut written) = (request.table.clone(), request.slots.clone(), request.row.clone(), vec![]);
    let said = says(request).map(|(nodes, v, held)| {
        if request.call == Call::Read {
            written = held[&request.slot].clone();
        } else {
            row.splice(..2 * v as usize, summary(v, &held));
        }
        if matches!(request.call, Call::Add | Call::Drop) {
            (table, slots) = one_table(v, &held);
            table.resize(request.table.len(), 0);
        }
        (nodes, v)
    });
    Answer { said, table, slots, row, written }
}

// ---- the library

/// How many words of the room are zero after a call.
fn zeroed(request: &Request, said: &Result<(usize, u32), Refused>) -> usize {
    let diagram = ROOM_PER_NODE * (request.words.len() / 3).max(2);
    match (request.call, said) {
        (Call::Drop | Call::Summarize, _) | (_, Err((NO_POOL | SHORT_ROW | OTHER_ROW, _))) => 0,
        (Call::Add, Err((1..=5, _))) => 0,
        (Call::Add, _) => diagram,
        (Call::Read, Ok(_) | Err((4, _))) => ROOM_PER_NODE * (request.table.len() / 3),
        (Call::Read, Err(_)) => 0,
    }
}

/// The records of whole pairs of words.
fn signals(words: &mut [u32]) -> &mut [Signal] {
    // a record is laid out as two words, and no word is none
    unsafe { std::slice::from_raw_parts_mut(words.as_mut_ptr().cast(), words.len() / 2) }
}

/// The library's answer, or what it did wrong to what it was lent.
fn ask(request: &Request) -> Result<Answer, &'static str> {
    let mut table = Lent::of(&request.table, request.seed.wrapping_add(4));
    let mut slots = Lent::of(&request.slots, request.seed.wrapping_add(5));
    let mut row = Lent::of(&request.row, request.seed.wrapping_add(6));
    let mut words = Lent::of(&request.words, request.seed.wrapping_add(1));
    let mut room = Lent::new(request.room, request.seed);
    let mut output = Lent::new(request.output, request.seed.wrapping_add(3));
    let lent::Verdict { number, place, nodes, vars } = match request.call {
        Call::Add => lent::pool_add(table.words(), slots.words(), signals(row.words()), words.words(), request.slot, room.words()),
        Call::Drop => lent::pool_drop(table.words(), slots.words(), signals(row.words()), request.slot),
        Call::Read => lent::pool_read(table.words(), slots.words(), request.slot, room.words(), output.words()),
        Call::Summarize => lent::pool_summarize(table.words(), slots.words(), signals(row.words())),
    };
    if ![&table, &slots, &row, &words, &room, &output].iter().all(|l| l.guarded()) {
        return Err("a guard word has changed");
    }
    if words.words() != request.words {
        return Err("the input has changed");
    }
    if number != 0 && (nodes, vars) != (0, 0) || number == 0 && place != 0 {
        return Err("a refusal has counts, or an answer a place");
    }
    let said = if number == 0 { Ok((nodes, vars)) } else { Err((number, place)) };
    if !zero_and_kept(&mut room, zeroed(request, &said)) {
        return Err("the room afterwards");
    }
    let written = if request.call == Call::Read { 3 * nodes } else { 0 };
    if written > request.output || !output.kept_from(written) {
        return Err("the output beyond the result");
    }
    let [table, slots, row] = [&mut table, &mut slots, &mut row].map(|lent| lent.words().to_vec());
    Ok(Answer { said, table, slots, row, written: output.words()[..written].to_vec() })
}

/// By the type that keeps table, slots and row for itself: it lends enough, and the row is its own, so that 5, 4, 37 and 47 say nothing of it.
fn held_to(request: &Request, expected: &Answer) -> Result<(), String> {
    let refusal = |(number, place): Refused| Refusal { number, place };
    let said = Pool::from_words(request.table.clone(), request.slots.clone()).and_then(|mut pool| {
        let (nodes, written) = match request.call {
            Call::Add => (pool.add(request.slot, &request.words)?, vec![]),
            Call::Drop => (pool.drop(request.slot)?, vec![]),
            Call::Read => pool.read(request.slot).map(|words| (words.len() / 3, words))?,
            Call::Summarize => (pool.places(), vec![]),
        };
        if matches!(request.call, Call::Add | Call::Drop) && pool.nodes() != nodes {
            return Err(refusal((0, 0)));
        }
        let row = pool.signals().iter().flat_map(|signal| [signal.nodes, signal.slots]).collect::<Vec<_>>();
        Ok(((nodes, pool.vars()), pool.table().to_vec(), pool.slots().to_vec(), row, written))
    });
    let wanted = expected.said.map_err(refusal).map(|said| {
        let row = summary(said.1, &held(&expected.table, &expected.slots));
        (said, expected.table.clone(), expected.slots.clone(), row, expected.written.clone())
    });
    if said == wanted { Ok(()) } else { Err(format!("by the type Pool: expected {wanted:?}, got {said:?}")) }
}

// ---- requests

/// A pool, and the calls that come to it: mostly with slots that are as they must be.
struct Script {
    table: Vec<u32>,
    slots: Vec<u32>,
    /// With some words behind the records at times.
    row: Vec<u32>,
    /// The most nodes of a diagram that is added.
    most: usize,
    /// What was put in each slot last, in reduced form: by the calls and their answers alone.
    last: Held,
}

impl Script {
    fn new(random: &mut Random, small: bool) -> Script {
        let (places, most) = match random.below(if small { 70 } else { 100 }) {
            0..=39 => (random.from_to(2, 12), random.from_to(3, 8)),
            40..=69 => (random.from_to(5, 40), random.from_to(3, 16)),
            70..=89 => (random.from_to(30, 300), random.from_to(8, 60)),
            90..=97 => (random.from_to(200, 1500), random.from_to(40, 300)),
            _ => (random.from_to(3000, MOST_NODES), random.from_to(500, MOST_NODES)),
        };
        let v = if random.one_in(3) { random.from_to(0, MOST_VARS) } else { random.from_to(0, 9) } as u32;
        let mut table = reading::constant(v, true);
        table.resize(3 * places, 0);
        let mut row = vec![0; 2 * v as usize];
        row.extend((0..random.below(6) / 2 * 2).map(|_| random.word()));
        Script { table, slots: vec![0; SLOTS], row, most, last: Held::new() }
    }

    fn places(&self) -> usize {
        self.table.len() / 3
    }

    /// Few, so that they are met again.
    fn slot(&self, random: &mut Random, live: bool) -> usize {
        let usual: Vec<usize> = (0..SLOTS).filter(|k| self.last.contains_key(k) == live && (k % 9 == 0 || live)).collect();
        match random.below(40) {
            0 => random.pick(&[SLOTS, SLOTS + 1, 1 << 32, usize::MAX]),
            1..=3 => random.below(SLOTS),
            _ if usual.is_empty() => random.below(SLOTS),
            _ => random.pick(&usual),
        }
    }

    /// A diagram of the pool's variables: any, or close to one that is held.
    fn words(&self, random: &mut Random) -> Vec<u32> {
        let v = self.table[0];
        if let (Some(of), false) = (self.last.values().nth(random.below(SLOTS) % self.last.len().max(1)), random.one_in(3)) {
            let mut of = of.clone();
            let close = beside(random, &mut of, self.most);
            if close[0] == v {
                return close;
            }
        }
        for _ in 0..20 {
            let mut words = generate::diagram(random, self.most).1;
            if words[0] <= v {
                set_vars(&mut words, v);
                return words;
            }
        }
        reading::constant(v, random.one_in(2))
    }

    fn request(&self, random: &mut Random, call: Call, slot: usize) -> Request {
        let mut words = if call == Call::Add { self.words(random) } else { vec![] };
        match random.below(60) {
            0 | 1 if call == Call::Add => words = generate::damaged(random, words),
            2 if call == Call::Add => words = generate::diagram(random, self.most).1,
            _ => (),
        }
        let asked = match call {
            Call::Add => ROOM_PER_NODE * (words.len() / 3).max(2),
            Call::Drop | Call::Summarize => 0,
            Call::Read => ROOM_PER_NODE * self.places(),
        };
        let room = if asked != 0 && random.one_in(8) { any_length(random, asked) } else { asked };
        let exact = self.last.get(&slot).map_or(0, Vec::len);
        let output = if call != Call::Read { 0 } else if random.one_in(3) { any_length(random, exact) } else { exact };
        let mut row = if call == Call::Read { vec![] } else { self.row.clone() };
        if call != Call::Read && random.one_in(8) {
            upset(random, &mut row, 2 * self.table[0] as usize);
        }
        Request { table: self.table.clone(), slots: self.slots.clone(), row, call, slot, words, room, output, seed: random.word() }
    }

    fn any(&self, random: &mut Random) -> Request {
        let call = if random.one_in(16) { Call::Summarize } else { random.pick(&[Call::Add, Call::Add, Call::Add, Call::Drop, Call::Read]) };
        let slot = self.slot(random, call != Call::Add);
        self.request(random, call, slot)
    }

    /// Takes an answer over. What is read must be what was put there last.
    fn after(&mut self, request: &Request, answer: &Answer) {
        (self.table, self.slots) = (answer.table.clone(), answer.slots.clone());
        if answer.said.is_ok() {
            if request.call != Call::Read {
                self.row = answer.row.clone();
            }
            match request.call {
                Call::Summarize => (),
                Call::Add => _ = self.last.insert(request.slot, reading::reduce(&request.words)),
                Call::Drop => _ = self.last.remove(&request.slot),
                Call::Read => assert_eq!(self.last[&request.slot], answer.written, "the model is wrong"),
            }
        }
    }
}

/// The same pool with its nodes at other places, and at times a few places more.
fn scattered(random: &mut Random, table: &[u32], slots: &[u32]) -> (Vec<u32>, Vec<u32>) {
    let used: Vec<usize> = inner(table).into_iter().collect();
    let places = (2 + used.len() + random.below(4)).max(table.len() / 3).min(MOST_NODES);
    let mut free: Vec<u32> = (2..places as u32).collect();
    let mut place = BTreeMap::from([(0, 0), (1, 1)]);
    for p in &used {
        place.insert(*p as u32, free.swap_remove(random.below(free.len())));
    }
    let mut made = vec![0; 3 * places];
    for p in [0, 1].iter().chain(&used) {
        let ([var, low, high], at) = (node(table, *p), 3 * place[&(*p as u32)] as usize);
        made[at..at + 3].copy_from_slice(&[var, place[&low], place[&high]]);
    }
    (made, slots.iter().map(|word| if *word == 0 { 0 } else { place[&(word - 1)] + 1 }).collect())
}

/// Something done to a row: to a word of the records, to one behind them, or to its length.
fn upset(random: &mut Random, row: &mut Vec<u32>, records: usize) {
    match random.below(4) {
        0 => row.truncate(random.below(records / 2 + 1) * 2),
        1 => row.extend([random.word(), random.word()]),
        2 if row.len() > records => {
            let at = random.from_to(records, row.len() - 1);
            row[at] = random.word();
        }
        _ if records > 0 => {
            let some = random.below(records);
            let at = random.pick(&[0, 1, records - 2, records - 1, some]);
            row[at] = random.pick(&[0, 1, row[at].wrapping_add(1), row[at].wrapping_sub(1), row[at ^ 1], u32::MAX]);
        }
        _ => (),
    }
}

/// Something done to a pool that may, or may not, spoil it.
fn damaged(random: &mut Random, table: &mut Vec<u32>, slots: &mut Vec<u32>) {
    let places = table.len() as u32 / 3;
    let some = random.below(places as usize) as u32;
    match random.below(12) {
        0 => table.truncate(random.below(table.len())),
        1 => table.extend((0..random.from_to(1, 4)).map(|_| 0)),
        2 => slots.truncate(random.below(SLOTS)),
        3 => slots.push(0),
        4..=6 => {
            let at = random.below(SLOTS);
            slots[at] = random.pick(&[0, 1, 2, 3, places - 1, places, places + 1, u32::MAX, some]);
        }
        7 => {
            let v = random.pick(&[0, table[0].wrapping_sub(1), table[0] + 1, MOST_VARS as u32, MOST_VARS as u32 + 1]);
            (table[0], table[3]) = (v, v);
        }
        8 if places > 3 => {
            // a node again
            let (from, to) = (random.from_to(2, places as usize - 1), random.from_to(2, places as usize - 1));
            table.copy_within(3 * from..3 * from + 3, 3 * to);
        }
        _ => {
            let at = random.below(table.len());
            table[at] = random.pick(&[0, 1, 2, places - 1, places, table[0], u32::MAX, some, table[at] ^ 1]);
        }
    }
}

/// As a line of tests/c/replay.txt; tests/c/replay.c says how it is laid out.
fn line(request: &Request, answer: &Answer) -> String {
    let join = |words: &[u32]| format!("{}{}", words.len(), words.iter().map(|x| format!(" {x}")).collect::<String>());
    let form = |words: &[u32]| format!(" {}{}", words.len(), written_form(words));
    let name = CALLS.iter().find(|(call, _)| *call == request.call).unwrap().1;
    let Request { slot, room, output, seed, .. } = request;
    let [table, slots, row, words] = [&request.table, &request.slots, &request.row, &request.words].map(|words| join(words));
    let asked = format!("{name} {table} {slots} {row} {slot} {words} {room} {output} {seed}");
    let said = match answer.said {
        Ok((nodes, vars)) => format!("0 0 {nodes} {vars}"),
        Err((number, place)) => format!("{number} {place} 0 0"),
    };
    format!("{asked} = {said}{}{}{}{}", form(&answer.table), form(&answer.slots), form(&answer.row), form(&answer.written))
}

#[derive(Default)]
struct Tally {
    by_type: u64,
    pools: u64,
    scattered: u64,
    spoilt: u64,
    still: u64,
    most_nodes: usize,
    most_live: usize,
    /// Of one variable.
    most_slots: u32,
    /// Nodes of all arrays beyond the terminals, and of the tables that hold them: at the end of each pool.
    apart: u64,
    together: u64,
    said: BTreeMap<(Call, u32), u64>,
}

/// One call: the library's answer is the expected one, which is given back.
fn hold(request: &Request, i: u64, tally: &mut Tally) -> Answer {
    let expected = expected(request);
    let said = ask(request);
    let mut fault = if said.as_ref() == Ok(&expected) { Ok(()) } else { Err(format!("got {said:?}")) };
    let short = matches!(expected.said, Err((4 | 5 | SHORT_ROW | OTHER_ROW, _)));
    if fault.is_ok() && !short && i % 2 == 0 {
        tally.by_type += 1;
        fault = held_to(request, &expected);
    }
    if let Err(fault) = fault {
        println!("DIFFERENT, after {i} calls to pools\nexpected {expected:?}\n{fault}\n{}", line(request, &expected));
        std::process::exit(1);
    }
    *tally.said.entry((request.call, expected.said.map_or_else(|(number, _)| number, |_| 0))).or_default() += 1;
    if let (Ok((nodes, _)), true) = (expected.said, matches!(request.call, Call::Add | Call::Drop)) {
        tally.most_slots = tally.most_slots.max(expected.row.iter().skip(1).step_by(2).take(expected.table[0] as usize).max().copied().unwrap_or(0));
        tally.most_nodes = tally.most_nodes.max(nodes);
        tally.most_live = tally.most_live.max(expected.slots.iter().filter(|word| **word != 0).count());
    }
    expected
}

pub fn compare(seed: u64, requests: u64) {
    let (random, mut tally, mut calls) = (&mut Random(seed), Tally::default(), 0);
    while calls < requests {
        let mut script = Script::new(random, false);
        tally.pools += 1;
        let length = if script.places() > 1000 { 30 } else { random.from_to(20, 200) };
        for _ in 0..length {
            if random.one_in(12) {
                // from here on the nodes stand elsewhere
                (script.table, script.slots) = scattered(random, &script.table, &script.slots);
                tally.scattered += 1;
            }
            let mut request = script.any(random);
            if random.one_in(8) {
                damaged(random, &mut request.table, &mut request.slots);
                let pool = well_formed(&request.table, &request.slots);
                tally.spoilt += !pool as u64;
                tally.still += pool as u64;
                hold(&request, calls, &mut tally);
            } else {
                let answer = hold(&request, calls, &mut tally);
                script.after(&request, &answer);
            }
            calls += 1;
        }
        tally.apart += script.last.values().map(|array| (array.len() / 3).saturating_sub(2) as u64).sum::<u64>();
        tally.together += inner(&script.table).len() as u64;
    }
    println!("\ncalls to pools: {calls}, no difference; {} of them by the type Pool too; {} pools", tally.by_type, tally.pools);
    println!("{} times the nodes were put elsewhere; {} times words were changed to no pool, {} times to another one", tally.scattered, tally.spoilt, tally.still);
    println!("at most {} nodes and {} conditions; left at the end {} nodes for arrays of {} together", tally.most_nodes, tally.most_live, tally.together, tally.apart);
    println!("at most {} conditions depend on one variable", tally.most_slots);
    println!("\n| refusal | add | drop | read | summarize |\n|--:|--:|--:|--:|--:|");
    let numbers: BTreeSet<u32> = tally.said.keys().map(|(_, number)| *number).collect();
    for number in numbers {
        let [add, drop, read, summarize] = CALLS.map(|(call, _)| tally.said.get(&(call, number)).copied().unwrap_or(0));
        println!("| {} | {add} | {drop} | {read} | {summarize} |", if number == 0 { "answered".to_string() } else { number.to_string() });
    }
}

/// Small ones, for tests/c/replay.txt.
pub fn store(seed: u64, requests: u64) {
    let (random, mut made) = (&mut Random(seed), 0);
    while made < requests {
        let mut script = Script::new(random, true);
        for _ in 0..12.min(requests - made) {
            if random.one_in(6) {
                (script.table, script.slots) = scattered(random, &script.table, &script.slots);
            }
            let mut request = script.any(random);
            let spoilt = random.one_in(6);
            if spoilt {
                damaged(random, &mut request.table, &mut request.slots);
            }
            let answer = expected(&request);
            println!("{}", line(&request, &answer));
            if !spoilt {
                script.after(&request, &answer);
            }
            made += 1;
        }
    }
}
