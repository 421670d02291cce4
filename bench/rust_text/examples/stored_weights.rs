//! Holds the stored counts and weights of crates/weights_run (made without the Rust) to the Rust text: every case that the list
//! accepts, but for one node, for which the Rust panics. Run at bench/: cargo run --release -p rust-text --example stored_weights
use num_bigint::BigUint;
use rust_text::Bdd;
use std::fs::read_to_string;

fn main() {
    let folder = concat!(env!("CARGO_MANIFEST_DIR"), "/../../crates/weights_run");
    let cases = read_to_string(format!("{folder}/stdin")).expect("stdin of weights_run");
    let answers = read_to_string(format!("{folder}/stdout")).expect("stdout of weights_run");
    // Two answers for each case: count and weights together, then the weights alone.
    let answers: Vec<&str> = answers.lines().collect();
    assert_eq!(2 * cases.lines().count(), answers.len());
    let (mut diagrams, mut weights, mut most_nodes, mut most_variables) = (0, 0, 0, 0);
    for (case, answers) in cases.lines().zip(answers.chunks(2)) {
        if !answers[0].starts_with("accepted") || answers[0].starts_with("accepted nodes 1 ") {
            continue;
        }
        // Room and output, each with its length and filling, stand before the diagram's words.
        let numbers: Vec<u32> = case.split(' ').map(|x| x.parse().expect("a number")).collect();
        let words = &numbers[4..];
        let number = |x: &str| BigUint::parse_bytes(x.as_bytes(), 16).expect("hexadecimal");
        let bdd = Bdd::from_words(words);
        let right = bdd.node_valuation_weights();
        for answer in answers {
            let stored: Vec<BigUint> = answer.split("weights ").nth(1).expect("weights").split(' ').map(number).collect();
            assert_eq!(stored, right, "{case}");
        }
        let count = answers[0].split("count ").nth(1).expect("a count").split(',').next().map(number);
        assert_eq!(count, Some(bdd.exact_cardinality()), "{case}");
        diagrams += 1;
        weights += right.len();
        most_nodes = most_nodes.max(words.len() / 3);
        most_variables = most_variables.max(words[0]);
    }
    println!("{diagrams} diagrams, their counts and {weights} weights equal; up to {most_nodes} nodes, {most_variables} variables");
}
