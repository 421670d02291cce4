//! Node files, written and read. Neither side has working room. The Rust side is a stand-in for the crate's `write_as_bytes` and
//! `read_as_bytes` (bench/rust_text): it writes to a new Vec of the right capacity, by `to_le_bytes`, and reads chunks of a slice to a
//! new Vec of nodes. Ours writes to what is lent, and tests its input first.
use crate::generate::{diagram, FAMILIES};
use crate::limits::BYTES_PER_NODE;
use crate::{least, ns, ours, time, NODES_A_ROW, SIZES};
use rust_text::Bdd;
use std::hint::black_box;

/// A diagram as words, nodes and bytes.
struct Case {
    words: Vec<u32>,
    bdd: Bdd,
    bytes: Vec<u8>,
}

impl Case {
    fn new(words: Vec<u32>) -> Case {
        let bdd = Bdd::from_words(&words);
        let bytes = written(&bdd, words.len() / 3);
        Case { words, bdd, bytes }
    }
}

fn written(bdd: &Bdd, nodes: usize) -> Vec<u8> {
    let mut bytes = Vec::with_capacity(BYTES_PER_NODE * nodes);
    bdd.write_as_bytes(&mut bytes);
    bytes
}

/// Both sides write the same bytes, and read the same words.
fn compare(case: &Case, words: &mut [u32], bytes: &mut [u8]) {
    let nodes = case.words.len() / 3;
    let (write, read) = (ours::write_as_bytes(&case.words, bytes), ours::read_as_bytes(&case.bytes, words));
    assert_eq!([(write.number, write.place, write.nodes), (read.number, read.place, read.nodes)], [(0, 0, nodes); 2]);
    assert_eq!(bytes, case.bytes);
    assert_eq!(words, case.words);
    assert_eq!(Bdd::read_as_bytes(&case.bytes), case.bdd);
}

pub fn node_files(seed: u64) {
    println!("\nnode files, of the family \"{}\": times in ns a call, the smaller of two passes' medians", FAMILIES[0].1);
    println!("`growth`, in the last row: the time at the most nodes over that at the fewest (linear is 16).\n");
    println!("| function | nodes | bytes | stand-in | ours | ours / stand-in | growth stand-in, ours |\n|---|--:|--:|--:|--:|--:|---|");
    let mut rows = vec![];
    for nodes in SIZES {
        let cases: Vec<Case> = (0..NODES_A_ROW / nodes).map(|i| Case::new(diagram(FAMILIES[0].0, nodes, seed + i as u64))).collect();
        let (mut words, mut bytes) = (vec![0; 3 * nodes], vec![0; BYTES_PER_NODE * nodes]);
        cases.iter().for_each(|case| compare(case, &mut words, &mut bytes));
        let mut passes = [[0.0; 2]; 4];
        for pass in 0..2 {
            passes[0][pass] = time(&cases, |case| _ = black_box(written(black_box(&case.bdd), nodes)));
            passes[1][pass] = time(&cases, |case| _ = black_box(ours::write_as_bytes(black_box(&case.words), black_box(&mut bytes))));
            passes[2][pass] = time(&cases, |case| _ = black_box(Bdd::read_as_bytes(black_box(&case.bytes))));
            passes[3][pass] = time(&cases, |case| _ = black_box(ours::read_as_bytes(black_box(&case.bytes), black_box(&mut words))));
        }
        rows.push((nodes, passes.map(least)));
    }
    let first = rows[0].1;
    for (name, side) in [("write_as_bytes", 0), ("read_as_bytes", 2)] {
        for (nodes, times) in &rows {
            let (rust, ours) = (times[side], times[side + 1]);
            let last = nodes == SIZES.last().unwrap();
            let growth = if last { format!("{:.1}, {:.1}", rust / first[side], ours / first[side + 1]) } else { "".into() };
            println!("| {name} | {nodes} | {} | {} | {} | {:.2} | {growth} |", BYTES_PER_NODE * nodes, ns(rust), ns(ours), ours / rust);
        }
    }
}
