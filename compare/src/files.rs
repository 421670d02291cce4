//! Node files: any bytes and any words to the library's two functions. Refusals are by a reading of the rules; what is written and read
//! is held, byte by byte and word by word, to the stand-in for the crate's `write_as_bytes` and `read_as_bytes` (bench/rust_text).
use crate::generate;
use crate::limits::{BYTES_PER_NODE, MOST_NODES};
use crate::random::Random;
use crate::reading::Refused;
use crate::request::{filling, written_form, Lent};
use houayletan::{lent, Refusal};
use rust_text::Bdd;
use std::collections::BTreeMap;

const MOST_BYTES: usize = BYTES_PER_NODE * MOST_NODES;

/// The input, how long what is lent for the result is, and the seed of what it holds at first.
#[derive(Clone, Debug)]
pub enum Request {
    Read { bytes: Vec<u8>, lent: usize, seed: u32 },
    Write { words: Vec<u32>, lent: usize, seed: u32 },
}

/// Nodes and result, or the refusal. The result is words, or bytes where it is written.
type Answer = Result<(usize, Vec<u32>), Refused>;

impl Request {
    fn name(&self) -> &'static str {
        match self {
            Request::Read { .. } => "read_as_bytes",
            Request::Write { .. } => "write_as_bytes",
        }
    }

    /// Nodes that the input has room for.
    fn nodes(&self) -> usize {
        match self {
            Request::Read { bytes, .. } => bytes.len() / BYTES_PER_NODE,
            Request::Write { words, .. } => words.len() / 3,
        }
    }
}

/// The rows for reading, in their order.
fn check_bytes(len: usize, lent: usize) -> Result<usize, Refused> {
    let nodes = len / BYTES_PER_NODE;
    if len == 0 {
        Err((51, 0))
    } else if nodes > MOST_NODES {
        Err((53, 0))
    } else if len % BYTES_PER_NODE != 0 {
        Err((52, 0))
    } else if lent < 3 * nodes {
        Err((54, 0))
    } else {
        Ok(nodes)
    }
}

/// The rows for writing, in their order.
fn check_words(words: &[u32], lent: usize) -> Result<usize, Refused> {
    let nodes = words.len() / 3;
    if words.is_empty() {
        Err((1, 0))
    } else if words.len() % 3 != 0 {
        Err((2, 0))
    } else if nodes > MOST_NODES {
        Err((53, 0))
    } else if lent < BYTES_PER_NODE * nodes {
        Err((54, 0))
    } else if let Some(p) = words.chunks(3).position(|node| node[0] > u16::MAX as u32) {
        Err((55, p))
    } else {
        Ok(nodes)
    }
}

fn expected(request: &Request) -> Answer {
    match request {
        Request::Read { bytes, lent, .. } => {
            let nodes = check_bytes(bytes.len(), *lent)?;
            Ok((nodes, Bdd::read_as_bytes(bytes).to_words()))
        }
        Request::Write { words, lent, .. } => {
            let nodes = check_words(words, *lent)?;
            let mut bytes = vec![];
            Bdd::from_words(words).write_as_bytes(&mut bytes);
            Ok((nodes, wide(&bytes)))
        }
    }
}

fn wide(bytes: &[u8]) -> Vec<u32> {
    bytes.iter().map(|b| *b as u32).collect()
}

const GUARD: usize = 16;

/// What stands at place i of lent bytes at first (tests/c/files.h has the same).
fn filling_byte(seed: u32, i: usize) -> u8 {
    (filling(seed, i) >> 24) as u8
}

/// Bytes with guard bytes on both sides.
pub struct LentBytes {
    all: Vec<u8>,
    len: usize,
    seed: u32,
}

impl LentBytes {
    pub fn new(len: usize, seed: u32) -> LentBytes {
        let guard = |i: usize| !filling_byte(seed, i);
        let all = (0..GUARD).map(guard).chain((0..len).map(|i| filling_byte(seed, i))).chain((GUARD..2 * GUARD).map(guard));
        LentBytes { all: all.collect(), len, seed }
    }
    pub fn of(bytes: &[u8], seed: u32) -> LentBytes {
        let mut lent = LentBytes::new(bytes.len(), seed);
        lent.bytes().copy_from_slice(bytes);
        lent
    }
    pub fn bytes(&mut self) -> &mut [u8] {
        &mut self.all[GUARD..GUARD + self.len]
    }
    pub fn guarded(&self) -> bool {
        let fresh = |i: usize, b: &u8| *b == !filling_byte(self.seed, i);
        let (before, after) = (&self.all[..GUARD], &self.all[GUARD + self.len..]);
        before.iter().enumerate().all(|(i, b)| fresh(i, b)) && after.iter().enumerate().all(|(i, b)| fresh(GUARD + i, b))
    }
    pub fn kept_from(&mut self, from: usize) -> bool {
        let seed = self.seed;
        self.bytes().iter().enumerate().skip(from).all(|(i, b)| *b == filling_byte(seed, i))
    }
}

fn flat(stored: lent::Stored) -> Result<Result<usize, Refused>, &'static str> {
    match stored {
        lent::Stored { number: 0, place: 0, nodes } => Ok(Ok(nodes)),
        lent::Stored { number: 0, .. } => Err("an answer has a place"),
        lent::Stored { number, place, nodes: 0 } => Ok(Err((number, place))),
        _ => Err("a refusal has nodes"),
    }
}

/// The library's answer, or what it did wrong to what it was lent.
fn ask(request: &Request) -> Result<Answer, &'static str> {
    let (mut words, mut bytes) = match request {
        Request::Read { bytes, lent, seed } => (Lent::new(*lent, *seed), LentBytes::of(bytes, seed.wrapping_add(1))),
        Request::Write { words, lent, seed } => (Lent::of(words, seed.wrapping_add(1)), LentBytes::new(*lent, *seed)),
    };
    let stored = match request {
        Request::Read { .. } => lent::read_as_bytes(bytes.bytes(), words.words()),
        Request::Write { .. } => lent::write_as_bytes(words.words(), bytes.bytes()),
    };
    let answer = flat(stored)?;
    if !words.guarded() || !bytes.guarded() {
        return Err("a guard has changed");
    }
    let nodes = answer.unwrap_or(0);
    let (kept, beyond, result) = match request {
        Request::Read { bytes: input, .. } => {
            let len = 3 * nodes;
            (bytes.bytes() == input, len <= words.words().len() && words.kept_from(len), words.words().get(..len).map(<[u32]>::to_vec))
        }
        Request::Write { words: input, .. } => {
            let len = BYTES_PER_NODE * nodes;
            (words.words() == input, len <= bytes.bytes().len() && bytes.kept_from(len), bytes.bytes().get(..len).map(wide))
        }
    };
    match result {
        _ if !kept => Err("the input has changed"),
        Some(result) if beyond => Ok(answer.map(|nodes| (nodes, result))),
        _ => Err("what was lent beyond the result"),
    }
}

/// By the functions that allocate for themselves; they lend enough, so that 54 says nothing of them.
fn held_to(request: &Request, expected: &Answer) -> Result<(), String> {
    if matches!(expected, Err((54, _))) {
        return Ok(());
    }
    let said = match request {
        Request::Read { bytes, .. } => houayletan::read_as_bytes(bytes),
        Request::Write { words, .. } => houayletan::write_as_bytes(words).map(|bytes| wide(&bytes)),
    };
    let wanted = expected.clone().map(|(_, result)| result).map_err(|(number, place)| Refusal { number, place });
    if said == wanted { Ok(()) } else { Err(format!("expected {wanted:?}, got {said:?}")) }
}

/// Few nodes mostly; those about a block file's most, and about a diagram's most.
fn any_nodes(random: &mut Random) -> usize {
    match random.below(40) {
        0 => random.from_to(MOST_NODES - 2, MOST_NODES + 2),
        1 => random.from_to(200, MOST_NODES),
        2..=5 => random.from_to(118, 122),
        6..=11 => random.from_to(12, 200),
        _ => random.from_to(0, 12),
    }
}

/// Exactly long enough mostly, one short, far too short, nothing, or longer.
fn any_lent(random: &mut Random, exact: usize) -> usize {
    match random.below(12) {
        0 | 1 => exact.saturating_sub(1),
        2 => random.below(exact + 1),
        3 => 0,
        4..=6 => exact + random.from_to(1, 40),
        _ => exact,
    }
}

fn any_word(random: &mut Random) -> u32 {
    match random.below(4) {
        0 => random.pick(&[0, 1, 255, 256, 65535, 65536, u32::MAX, 1 << 31]),
        1 => random.below(5000) as u32,
        _ => random.word(),
    }
}

fn any_read(random: &mut Random, nodes: usize) -> Request {
    let exact = BYTES_PER_NODE * nodes;
    let len = match random.below(8) {
        0 => exact + random.from_to(1, 9),
        1 => exact.saturating_sub(random.from_to(1, 9)),
        // the limit, and where it is first passed by a whole node
        2 if random.one_in(40) => MOST_BYTES + random.below(25),
        _ => exact,
    };
    let bytes = if random.one_in(8) { vec![random.word() as u8; len] } else { (0..len).map(|_| random.word() as u8).collect() };
    let lent = any_lent(random, 3 * (len / BYTES_PER_NODE));
    Request::Read { bytes, lent, seed: random.word() }
}

fn any_write(random: &mut Random, nodes: usize) -> Request {
    let mut words: Vec<u32> = if random.one_in(4) && (3..=MOST_NODES).contains(&nodes) {
        generate::diagram(random, nodes).1
    } else {
        (0..3 * nodes).map(|i| if i % 3 == 0 { random.word() >> 16 } else { any_word(random) }).collect()
    };
    let len = words.len();
    match random.below(8) {
        0 if len > 0 => words.truncate(len - random.from_to(1, 2).min(len)),
        1 => words.push(random.word()),
        // a wide variable or two
        2 | 3 if len > 0 => {
            for _ in 0..random.from_to(1, 2) {
                words[3 * random.below(len / 3)] = random.pick(&[65535, 65536, 65537, 1 << 31, u32::MAX]);
            }
        }
        _ => (),
    }
    let lent = any_lent(random, BYTES_PER_NODE * (words.len() / 3));
    Request::Write { words, lent, seed: random.word() }
}

fn any_request(random: &mut Random, nodes: usize) -> Request {
    if random.one_in(2) { any_read(random, nodes) } else { any_write(random, nodes) }
}

/// As a line of tests/c/replay.txt.
fn line(request: &Request, answer: &Answer) -> String {
    let (input, lent, seed) = match request {
        Request::Read { bytes, lent, seed } => (wide(bytes), lent, seed),
        Request::Write { words, lent, seed } => (words.clone(), lent, seed),
    };
    let join = |numbers: &[u32]| numbers.iter().map(|x| format!(" {x}")).collect::<String>();
    let (number, place, nodes, result) = match answer {
        Ok((nodes, result)) => (0, 0, *nodes, result.clone()),
        Err((number, place)) => (*number, *place, 0, vec![]),
    };
    let asked = format!("{} {}{} {lent} {seed}", request.name(), input.len(), join(&input));
    format!("{asked} = {number} {place} {nodes} {}{}", result.len(), written_form(&result))
}

/// How often each function answered and refused, for the report.
#[derive(Default)]
struct Tally {
    answered: BTreeMap<&'static str, u64>,
    refused: BTreeMap<(&'static str, u32), u64>,
    safe: u64,
    most: u64,
}

/// As many requests as that. Ends the program at the first difference.
pub fn compare(seed: u64, requests: u64) {
    let random = &mut Random(seed);
    let mut tally = Tally::default();
    for i in 0..requests {
        let nodes = any_nodes(random);
        let request = any_request(random, nodes);
        let expected = expected(&request);
        let said = ask(&request);
        let fault = if said.as_ref() != Ok(&expected) { Err(format!("got {said:?}")) } else { held_to(&request, &expected) };
        if let Err(fault) = fault {
            println!("DIFFERENT, after {i} node files: {}\nexpected {expected:?}\n{fault}", request.name());
            println!("{}", line(&request, &expected));
            std::process::exit(1);
        }
        match expected {
            Ok((nodes, _)) => {
                *tally.answered.entry(request.name()).or_default() += 1;
                tally.most += (nodes == MOST_NODES) as u64;
            }
            Err((number, _)) => *tally.refused.entry((request.name(), number)).or_default() += 1,
        }
        tally.safe += !matches!(expected, Err((54, _))) as u64;
    }
    println!("\nnode files: {requests} requests, no difference; {} of them by the allocating functions too", tally.safe);
    println!("answered with {MOST_NODES} nodes: {}", tally.most);
    println!("\n| function | answered | refused |\n|---|--:|---|");
    for (name, answered) in &tally.answered {
        let refused = tally.refused.iter().filter(|((of, _), _)| of == name);
        let refused: Vec<String> = refused.map(|((_, number), times)| format!("{number}: {times}")).collect();
        println!("| {name} | {answered} | {} |", refused.join(", "));
    }
}

/// Small ones, for tests/c/replay.txt.
pub fn store(seed: u64, requests: u64) {
    let random = &mut Random(seed);
    for i in 0..requests {
        let nodes = if i % 50 == 0 { random.from_to(118, 122) } else { random.from_to(0, 6) };
        let request = loop {
            let request = any_request(random, nodes);
            if request.nodes() <= nodes + 1 {
                break request;
            }
        };
        println!("{}", line(&request, &expected(&request)));
    }
}
