//! The same requests to the Rust text and to the library, every answer compared.
//!
//!     houayletan-compare SEED REQUESTS          compares; the first difference is printed as a line for tests/c/replay.c
//!     houayletan-compare store SEED REQUESTS    prints requests with the expected answers, for tests/c/replay.txt
mod comparing;
mod files;
mod generate;
mod pooling;
mod random;
mod reading;
mod reference;
mod request;
mod safe;
mod settings;

use houayletan::limits::{self, COUNT_WORDS, MOST_NODES};
use num_bigint::BigUint;
use random::Random;
use request::{Argument, Operation, Reply, Request, OPERATIONS};
use rust_text::Bdd;
use std::collections::BTreeMap;

/// Of the requests asked for, one node file more for so many.
const FILES_ONE_IN: u64 = 4;

/// Node files among the stored requests, after the others.
const STORED_FILES: u64 = 400;

/// Comparisons among them, after these.
const STORED_COMPARISONS: u64 = 400;

/// Calls to pools among them, after these; and of the requests asked for, one such call more for so many.
const STORED_CALLS: u64 = 600;
const CALLS_ONE_IN: u64 = 2;

/// Settings blocks among them, after these; and of the requests asked for, one more for so many.
const STORED_SETTINGS: u64 = 200;
const SETTINGS_ONE_IN: u64 = 4;

/// The most nodes of a request's diagram: many small ones, some of every size.
fn most_nodes(random: &mut Random) -> usize {
    match random.below(100) {
        0..=29 => random.from_to(3, 10),
        30..=59 => random.from_to(8, 64),
        60..=84 => random.from_to(40, 500),
        85..=94 => random.from_to(400, 2000),
        95..=97 => random.from_to(2000, MOST_NODES),
        _ => MOST_NODES,
    }
}

/// The words, the family's number, and whether they were damaged.
fn words(random: &mut Random, most: usize) -> (Vec<u32>, usize, bool) {
    let (family, words) = generate::diagram(random, most);
    assert!(reading::check(&words, usize::MAX, reading::Output::Nothing, 0).is_ok(), "{}: {words:?}", generate::FAMILIES[family].0);
    match random.below(40) {
        0 => {
            let len = random.from_to(0, 12);
            ((0..len).map(|_| random.below(4) as u32).collect(), family, true)
        }
        1 if random.one_in(4) => {
            // the most nodes and one more
            let mut words = words;
            words.resize(3 * random.from_to(MOST_NODES, MOST_NODES + 1) + random.below(2), 1);
            (words, family, true)
        }
        2..=11 => (generate::damaged(random, words), family, true),
        _ => (words, family, false),
    }
}

fn list(random: &mut Random, n: usize) -> Vec<u32> {
    let n = n.max(1);
    let len = match random.below(6) {
        0..=3 if n < 3 => 0,
        0 => 0,
        1..=3 => random.from_to(1, 4),
        4 => random.from_to(1, n),
        _ => random.from_to(1, n.min(40)),
    };
    // mostly nodes that may be listed; of one and two nodes there are none
    let (from, to) = match n {
        1 | 2 => (0, n - 1),
        3 => (2, 2),
        _ => (2, n - 2),
    };
    let mut list: Vec<u32> = (0..len).map(|_| random.from_to(from, to) as u32).collect();
    // now and then what may not, and the root: one or two, so that a terminal stands beside the root too
    for _ in 0..random.pick(&[0, 0, 0, 1, 1, 2]) {
        if !list.is_empty() {
            let at = random.below(list.len());
            list[at] = random.pick(&[0, 1, n as u32 - 1, n as u32 - 1, n as u32, u32::MAX, list[0]]);
        }
    }
    list
}

fn size_target(random: &mut Random, n: usize) -> u32 {
    match random.below(10) {
        // the smallest: some refused, one of them answered otherwise than by the Rust
        0 => random.below(4) as u32,
        1 => random.pick(&[n as u32, n as u32 + 1, (n as u32).saturating_sub(1), u32::MAX, 1 << 31]),
        2 => random.word(),
        _ => random.below(n + 1) as u32,
    }
}

fn count_target(random: &mut Random, words: &[u32]) -> [u32; COUNT_WORDS] {
    let accepted = reading::check(words, usize::MAX, reading::Output::Nothing, 0);
    let any = BigUint::from_slice(&[0; COUNT_WORDS].map(|_| random.word())) >> random.below(32 * COUNT_WORDS + 1);
    let Ok((_, v)) = accepted else {
        return fitted(&any);
    };
    let count = Bdd::from_words(words).exact_cardinality();
    let all = BigUint::from(1u32) << v;
    let one = BigUint::from(1u32);
    let part = random.below(1001) as u32;
    fitted(&match random.below(14) {
        0 => BigUint::from(random.below(4)),
        1 => any,
        2 => count,
        3 => count + one,
        4 => if count > one { count - one } else { count },
        5 => all,
        6 => all + one,
        7 => if all > one { all - one } else { all },
        8 => any % (all + one),
        // above the count, for over; below it, for under
        9..=10 => &count + (&all - &count) * part / 1000u32,
        _ => count * part / 1000u32,
    })
}

fn fitted(count: &BigUint) -> [u32; COUNT_WORDS] {
    let mut words = [0; COUNT_WORDS];
    for (to, from) in words.iter_mut().zip(count.to_u32_digits()) {
        *to = from;
    }
    words
}

fn request(random: &mut Random, operation: usize, most: usize) -> (Request, usize, bool) {
    let (words, family, damaged) = words(random, most);
    let n = words.len() / 3;
    let argument = match OPERATIONS[operation].0 {
        Operation::Underapproximate | Operation::Overapproximate => Argument::List(list(random, n)),
        Operation::UnderapproximateToSize | Operation::OverapproximateToSize => Argument::Size(size_target(random, n)),
        Operation::UnderapproximateToCardinality | Operation::OverapproximateToCardinality => Argument::Count(count_target(random, &words)),
        _ => Argument::None,
    };
    let as_is = matches!(argument, Argument::Size(_) | Argument::Count(_)) && random.one_in(2);
    let (room, output) = request::lengths(random, words.len(), OPERATIONS[operation].2);
    (Request { operation, words, argument, as_is, room, output, seed: random.word() }, family, damaged)
}

/// Of the requests that are answered, those with more variables than could be at first, and numbers of more words than a count had.
#[derive(Default)]
struct Wide {
    vars: u64,
    counts: u64,
    weighed: u64,
    weights: u64,
    targets: u64,
}

impl Wide {
    const VARS: u32 = 255;
    const WORDS: usize = 8;

    fn add(&mut self, request: &Request, reply: &Reply) {
        let wide = |words: &[u32]| words[Wide::WORDS..].iter().any(|w| *w != 0);
        self.vars += (reply.vars > Wide::VARS) as u64;
        if reply.values.len() == COUNT_WORDS {
            self.counts += reply.values[Wide::WORDS..].iter().any(|w| *w != 0) as u64;
        }
        if request.output_kind() == reading::Output::Weights {
            let weights = reply.written.chunks(COUNT_WORDS).filter(|w| wide(w)).count() as u64;
            self.weights += weights;
            self.weighed += (weights > 0) as u64;
        }
        if let Argument::Count(target) = &request.argument {
            self.targets += wide(target) as u64;
        }
    }
}

fn number(text: Option<String>, other: u64) -> u64 {
    text.map_or(other, |t| t.parse().expect("a number"))
}

fn main() {
    let mut arguments = std::env::args().skip(1).peekable();
    let store = arguments.next_if(|a| a == "store").is_some();
    let seed = number(arguments.next(), 2026);
    let requests = number(arguments.next(), 200_000);
    let random = &mut Random(seed);
    if store {
        self::store(random, requests);
        files::store(seed, STORED_FILES);
        comparing::store(seed, STORED_COMPARISONS);
        pooling::store(seed, STORED_CALLS);
        return settings::store(seed, STORED_SETTINGS);
    }

    let mut tally = vec![[0u64; 2]; OPERATIONS.len()];
    let mut refusals: BTreeMap<u32, u64> = BTreeMap::new();
    let mut families = [[0u64; 2]; generate::FAMILIES.len()];
    // by nodes of the words offered: below each of these
    const SIZES: [usize; 5] = [16, 256, 2048, MOST_NODES, usize::MAX];
    let mut sizes = [0u64; 5];
    let (mut compared, mut most, mut most_vars, mut most_trials, mut safe, mut departures) = (0, 0, 0, 0, 0u64, 0u64);
    // of the targets that the array meets: without as_is, the same in other words than the Rust's, and with as_is
    let (mut reduced, mut reworded, mut kept) = (0u64, 0u64, 0u64);
    let mut wide = Wide::default();
    while compared < requests {
        let operation = random.below(OPERATIONS.len());
        let limit = most_nodes(random);
        let (request, family, damaged) = request(random, operation, limit);
        let expected = reference::expected(&request);
        tally[operation][(expected.number != 0) as usize] += 1;
        let said = request::ask(&request);
        if said.as_ref() != Ok(&expected) {
            println!("DIFFERENT, after {compared} requests: {}\nexpected {expected:?}\ngot {said:?}", OPERATIONS[operation].1);
            println!("{}", request::line(&request, &expected));
            std::process::exit(1);
        }
        // and by the functions that allocate for themselves
        if compared % 8 == 0 {
            safe += 1;
            if let Err(what) = safe::held_to(&request, &expected) {
                println!("DIFFERENT, the allocating function, after {compared} requests: {what}");
                println!("{}", request::line(&request, &expected));
                std::process::exit(1);
            }
        }
        compared += 1;
        families[family][damaged as usize] += 1;
        sizes[SIZES.iter().position(|s| request.words.len() / 3 < *s).unwrap()] += 1;
        if expected.number == 0 {
            wide.add(&request, &expected);
            departures += (OPERATIONS[operation].0 == Operation::OverapproximateToSize && matches!(request.argument, Argument::Size(1))) as u64;
            if reference::met(&request) {
                reduced += !request.as_is as u64;
                reworded += (expected.written != request.words) as u64;
                kept += request.as_is as u64;
            }
            most = most.max(expected.nodes);
            most_vars = most_vars.max(expected.vars);
            most_trials = most_trials.max(if expected.values.len() == 2 { expected.values[1] } else { 0 });
        } else {
            *refusals.entry(expected.number).or_default() += 1;
        }
    }
    println!("seed {seed}: {compared} requests, no difference; {safe} of them by the allocating functions too");
    println!("over to size 1 of what holds for no valuation, which the Rust answers otherwise: {departures}");
    println!("targets that the array meets: {kept} with as_is; {reduced} without, which gives other words than the Rust's: {reworded}");
    println!("largest accepted: {most} nodes, {most_vars} variables; most trials {most_trials}");
    println!("answered with more than {} variables: {}", Wide::VARS, wide.vars);
    let Wide { counts, weighed, weights, targets, .. } = wide;
    println!("of 2^{} or more: {counts} counts, {weights} weights in {weighed} answers, {targets} targets", 32 * Wide::WORDS);
    println!("nodes offered: {} below 16, {} below 256, {} below 2,048, {} below {MOST_NODES}, {} more", sizes[0], sizes[1], sizes[2], sizes[3], sizes[4]);
    println!("\n| operation | answered | refused |\n|---|--:|--:|");
    for ((_, name, _), [answered, refused]) in OPERATIONS.iter().zip(tally) {
        println!("| {name} | {answered} | {refused} |");
    }
    println!("\n| refusal | times |\n|--:|--:|");
    refusals.iter().for_each(|(number, times)| println!("| {number} | {times} |"));
    println!("\n| family | whole | damaged |\n|---|--:|--:|");
    for ((name, _), [whole, damaged]) in generate::FAMILIES.iter().zip(families) {
        println!("| {name} | {whole} | {damaged} |");
    }
    files::compare(seed, requests / FILES_ONE_IN);
    comparing::compare(seed, requests);
    pooling::compare(seed, requests / CALLS_ONE_IN);
    settings::compare(seed, requests / SETTINGS_ONE_IN);
}

/// Small diagrams, and a few large ones. The searches come up three times as often as the others, with more nodes.
fn store(random: &mut Random, requests: u64) {
    let searches = OPERATIONS.len() - 4..OPERATIONS.len();
    let turn: Vec<usize> = (0..OPERATIONS.len()).chain(searches.clone()).chain(searches.clone()).collect();
    for i in 0..requests {
        let operation = turn[i as usize % turn.len()];
        let (least, most) = match i / turn.len() as u64 {
            0 if i % 5 == 0 => (2000, MOST_NODES),
            0 | 1 => (150, 600),
            round if round % 8 == 0 => (0, random.from_to(30, 120)),
            _ if searches.contains(&operation) => (0, random.from_to(6, 40)),
            _ => (0, random.from_to(3, 24)),
        };
        let request = loop {
            let (request, _, _) = request(random, operation, most);
            if (least..=most + 5).contains(&(request.words.len() / 3)) {
                break request;
            }
        };
        println!("{}", request::line(&request, &reference::expected(&request)));
    }
}
