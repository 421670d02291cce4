//! Times the Rust text and the proved library side by side, and compares what they answer.
mod files;
mod generate;
#[path = "../../bindings/rust/src/limits.rs"]
mod limits;
mod operations;
mod ours;
mod settings;

use generate::{diagram, vars_of, Random, FAMILIES};
use limits::{MOST_NODES, ROOM_PER_NODE};
use operations::{Case, Lent, Operation, OPERATIONS};
use num_bigint::BigUint;
use rust_text::Bdd;
use std::hint::black_box;
use std::time::Instant;

const SIZES: [usize; 5] = [MOST_NODES / 16, MOST_NODES / 8, MOST_NODES / 4, MOST_NODES / 2, MOST_NODES];
/// A row is measured over several diagrams, this many nodes together at every size: over one alone, small ones would be
/// quicker a node for the processor's memory of past branches only.
const NODES_A_ROW: usize = 16384;
const BATCHES: usize = 21;
const BATCH_NS: f64 = 1_000_000.0;

/// The median of some batches, in ns a call; a batch goes through all the cases some times.
fn time<T>(cases: &[T], mut call: impl FnMut(&T)) -> f64 {
    let mut batch = |k: usize| {
        let start = Instant::now();
        (0..k).for_each(|_| cases.iter().for_each(&mut call));
        start.elapsed().as_nanos() as f64 / k as f64
    };
    let once = batch(1).min(batch(1));
    let k = ((BATCH_NS / once) as usize).clamp(1, 10_000);
    let batches = if once > 20_000_000.0 { 3 } else { BATCHES };
    let mut times: Vec<f64> = (0..batches).map(|_| batch(k)).collect();
    times.sort_by(f64::total_cmp);
    times[batches / 2] / cases.len() as f64
}

/// One row: each time as measured in the first and in the second pass.
struct Row {
    operation: &'static str,
    family: &'static str,
    vars: usize,
    nodes: usize,
    rust: [f64; 2],
    ours: Option<[f64; 2]>,
    clear: [f64; 2],
}

fn least(x: [f64; 2]) -> f64 {
    x[0].min(x[1])
}

fn measure(operation: &Operation, cases: &[Case], lent: &mut Lent) -> (f64, Option<f64>, f64) {
    let rust = time(cases, |case| (operation.rust)(black_box(case)));
    let clear = time(cases, |case| ours::clear(black_box(&mut lent.room), black_box(ROOM_PER_NODE * case.nodes())));
    let ours = operation.ours.map(|ours| time(cases, |case| ours(black_box(case), black_box(lent))));
    (rust, ours, clear)
}

/// Both sides say the same of diagrams with one word changed. (Words 0 to 5 stay: the Rust text does not look at
/// terminals where there are three nodes or more.)
fn compare_damaged(seed: u64, lent: &mut Lent) -> [usize; 2] {
    let mut said = [0; 2];
    let mut random = Random(seed);
    for (family, name) in FAMILIES {
        let whole = diagram(family, 64, seed);
        for _ in 0..2_000 {
            let mut words = whole.clone();
            let at = 6 + random.below(words.len() - 6);
            words[at] = random.below(words.len() / 2) as u32;
            let accepted = ours::validate(&words, &mut lent.room).number == 0;
            assert_eq!(accepted, Bdd::from_words(&words).validate().is_ok(), "{name} {at} {}", words[at]);
            said[accepted as usize] += 1;
        }
    }
    said
}

/// One diagram that takes thousands of cuts: one call of each side a pass.
fn many_cuts(lent: &mut Lent) {
    let (words, target) = generate::many_cuts();
    let (bdd, count) = (Bdd::from_words(&words), BigUint::new(target));
    let nodes = words.len() / 3;
    let mut times = [[0.0; 2]; 2];
    let mut trials = 0;
    for pass in 0..2 {
        let start = Instant::now();
        let theirs = black_box(bdd.underapproximate_to_cardinality(&count));
        times[0][pass] = start.elapsed().as_nanos() as f64;
        let (room, output) = (&mut lent.room[..ROOM_PER_NODE * nodes], &mut lent.output[..3 * nodes]);
        let start = Instant::now();
        let made = black_box(ours::underapproximate_to_cardinality(&words, operations::natural(&count), true, room, output));
        times[1][pass] = start.elapsed().as_nanos() as f64;
        assert_eq!(&lent.output[..3 * made.nodes], theirs.to_words());
        trials = made.trials;
    }
    let [rust, ours] = times.map(least);
    println!("\nmany cuts: columns of conjunctions, {nodes} nodes, {} variables, to count {count}: {trials} cuts", words[0]);
    println!("Rust text {} ns, ours {} ns, ours / Rust {:.3}: the smaller of two calls each", ns(rust), ns(ours), ours / rust);
}

fn main() {
    let seed = std::env::args().nth(1).map_or(2026, |s| s.parse().expect("the seed is a number"));
    let wanted = std::env::args().nth(2);
    let mut lent = Lent::new(*SIZES.last().unwrap());
    let [refused, accepted] = compare_damaged(seed, &mut lent);
    println!("seed {seed}; validate of diagrams with one word changed: {accepted} accepted and {refused} refused by both sides\n");

    let mut rows: Vec<Row> = vec![];
    for pass in 0..2 {
        let mut at = 0;
        for operation in OPERATIONS.iter().filter(|o| wanted.as_ref().map_or(true, |w| o.name.contains(w.as_str()))) {
            for (family, name) in FAMILIES {
                for nodes in SIZES {
                    let made = |i| Case::new(diagram(family, nodes, seed + i as u64), operation);
                    // A cut to just under the count may make thousands of cuts: one diagram is enough there.
                    let count = if operation.name.ends_with("just under") { 1 } else { NODES_A_ROW / nodes };
                    let cases: Vec<Case> = (0..count).map(made).collect();
                    for case in cases.iter().filter(|_| pass == 0) {
                        let verdict = ours::validate(&case.words, &mut lent.room);
                        assert!(verdict.number == 0, "{name}: refused {} at {}", verdict.number, verdict.place);
                        (operation.compare)(case, &mut lent);
                        assert!(lent.room.iter().all(|w| *w == 0), "{name}: the room is not zero");
                    }
                    let (rust, ours, clear) = measure(operation, &cases, &mut lent);
                    if pass == 0 {
                        rows.push(Row {
                            operation: operation.name,
                            family: name,
                            vars: vars_of(family),
                            nodes,
                            rust: [rust; 2],
                            ours: ours.map(|x| [x; 2]),
                            clear: [clear; 2],
                        });
                    } else {
                        rows[at].rust[1] = rust;
                        rows[at].clear[1] = clear;
                        if let (Some(old), Some(new)) = (rows[at].ours.as_mut(), ours) {
                            old[1] = new;
                        }
                    }
                    at += 1;
                }
            }
        }
    }
    if !rows.is_empty() {
        print(&rows);
    }
    if wanted.as_ref().map_or(true, |w| w == "many cuts") {
        many_cuts(&mut lent);
    }
    if wanted.as_ref().map_or(true, |w| w == "node files") {
        files::node_files(seed);
    }
    if wanted.map_or(true, |w| w == "settings") {
        settings::settings(seed);
    }
}

fn ns(x: f64) -> String {
    let digits = format!("{:.0}", x.max(0.0));
    let mut out = String::new();
    for (i, d) in digits.chars().enumerate() {
        if i > 0 && (digits.len() - i) % 3 == 0 {
            out.push(',');
        }
        out.push(d);
    }
    out
}

fn print(rows: &[Row]) {
    let last = *SIZES.last().unwrap();
    println!("Times in ns a call: the smaller of two passes' medians. `clearing`: one clearing of the working room, {ROOM_PER_NODE} words a node.");
    println!("`growth`, in the last row of a family: the time at {last} nodes over that at {} (linear is 16).\n", SIZES[0]);
    println!("one clearing of the working room\n\n| nodes | words | time | growth |\n|--:|--:|--:|---|");
    let clearing = |n: usize| {
        let mut all: Vec<f64> = rows.iter().filter(|r| r.nodes == n).map(|r| least(r.clear)).collect();
        all.sort_by(f64::total_cmp);
        all[all.len() / 2]
    };
    for n in SIZES {
        let growth = if n == last { format!("{:.1}", clearing(n) / clearing(SIZES[0])) } else { "".into() };
        println!("| {n} | {} | {} | {growth} |", ROOM_PER_NODE * n, ns(clearing(n)));
    }
    let mut operation = "";
    for (i, row) in rows.iter().enumerate() {
        if row.operation != operation {
            operation = row.operation;
            println!("\n{operation}\n");
            println!("| family (variables) | nodes | Rust text | ours | clearing | ours - clearing | ours / Rust | ours / clearing | growth Rust, ours, ours - clearing |");
            println!("|---|--:|--:|--:|--:|--:|--:|--:|---|");
        }
        let clear = least(row.clear);
        let first = &rows[i + 1 - SIZES.len().min(i + 1)];
        let growth = |f: fn(&Row) -> f64| match row.nodes == last {
            true => format!("{:.1}", f(row) / f(first)),
            false => "".into(),
        };
        let mut growths = vec![growth(|r| least(r.rust))];
        let [mut ours, mut rest, mut ratio, mut to_clear] = [const { String::new() }; 4];
        if let Some(x) = row.ours.map(least) {
            (ours, rest) = (ns(x), ns(x - clear));
            (ratio, to_clear) = (format!("{:.2}", x / least(row.rust)), format!("{:.2}", x / clear));
            growths.push(growth(|r| r.ours.map_or(0.0, least)));
            growths.push(growth(|r| r.ours.map_or(0.0, least) - least(r.clear)));
        }
        let growth = if row.nodes == last { growths.join(", ") } else { "".into() };
        println!(
            "| {} ({}) | {} | {} | {ours} | {} | {rest} | {ratio} | {to_clear} | {growth} |",
            row.family, row.vars, row.nodes, ns(least(row.rust)), ns(clear)
        );
    }
    let apart = |x: [f64; 2]| x[0].max(x[1]) / least(x);
    let mut all: Vec<f64> = rows.iter().flat_map(|r| [apart(r.rust), apart(r.clear), r.ours.map_or(1.0, apart)]).collect();
    all.sort_by(f64::total_cmp);
    println!("\nThe two passes differ by a factor of {:.2} in the median and {:.2} at most.", all[all.len() / 2], all[all.len() - 1]);
}
