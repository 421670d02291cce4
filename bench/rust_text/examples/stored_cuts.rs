//! Answers the cuts of standard input with the Rust text, a line for each: nodes, trials, and the words of the answer.
//! tests/cuts_cases.py writes what crates/cuts_run stores with it, and asks only what the rules don't refuse.
//! A request is a line: the letter of the operation (u, o by a list; s, t to a size; c, d to a count; the first of each pair
//! from below, the other from above), how many words the list or the target has, these words, and the words of the diagram.
//!
//! The text has no trials. They are counted by going through its searches once more here, with its own weights and its own
//! cuts by a list; the answer of that has to be the text's, and of those cuts that do not list the root there have to be as
//! many as the text's search called `and`.
use num_bigint::BigUint;
use rust_text::{ands, Bdd, BddPointer};
use std::io::{stdin, BufRead};

struct Search<'a> {
    bdd: &'a Bdd,
    priorities: Vec<(BigUint, usize)>,
    trials: usize,
    rootless: usize,
}

impl Search<'_> {
    fn of(bdd: &Bdd) -> Search<'_> {
        let weights = bdd.node_valuation_weights().into_iter().enumerate().skip(2);
        let mut priorities: Vec<(BigUint, usize)> = weights.map(|(p, x)| (x, p)).collect();
        priorities.sort_by(|x, y| x.0.cmp(&y.0).then(y.1.cmp(&x.1)));
        Search { bdd, priorities, trials: 0, rootless: 0 }
    }

    fn first(&mut self, count: usize) -> Bdd {
        let list: Vec<BddPointer> = self.priorities[..count].iter().map(|x| BddPointer::from_index(x.1)).collect();
        self.trials += 1;
        self.rootless += !list.contains(&self.bdd.root_pointer()) as usize;
        self.bdd.underapproximate(&list)
    }
}

/// The search under a size, as document 01 has it: its answer, its trials, and those of them that do not list the root.
fn under_size(bdd: &Bdd, target: usize) -> Option<(Bdd, usize, usize)> {
    if target <= 2 || bdd.size() <= target {
        return None;
    }
    let mut search = Search::of(bdd);
    let (mut start, mut stop) = (0, bdd.size() - target);
    while start < stop {
        let check = (start + stop) / 2;
        let cut = search.first(check);
        if cut.size() == target {
            return Some((cut, search.trials, search.rootless));
        }
        if cut.size() < target {
            stop = check;
        } else {
            start = check + 1;
        }
    }
    let cut = search.first(stop);
    Some((cut, search.trials, search.rootless))
}

/// The same of the search under a count.
fn under_count(bdd: &Bdd, target: &BigUint) -> Option<(Bdd, usize, usize)> {
    let count = bdd.exact_cardinality();
    if target == &BigUint::default() || &count <= target {
        return None;
    }
    let mut search = Search::of(bdd);
    let mut taken = 0;
    let mut rest = count - target;
    loop {
        while taken < search.priorities.len() {
            let weight = search.priorities[taken].0.clone();
            taken += 1;
            if rest <= weight {
                break;
            }
            rest -= weight;
        }
        let cut = search.first(taken);
        let left = cut.exact_cardinality();
        if &left <= target {
            return Some((cut, search.trials, search.rootless));
        }
        rest = left - target;
    }
}

/// The text's answer, held to the search's.
fn searched(text: impl Fn() -> Bdd, again: Option<(Bdd, usize, usize)>, negated: bool) -> (Bdd, usize) {
    let before = ands();
    let answer = text();
    let calls = ands() - before;
    let Some((cut, trials, rootless)) = again else {
        assert_eq!(calls, 0);
        return (answer, 0);
    };
    assert_eq!(if negated { cut.not() } else { cut }, answer);
    assert_eq!(rootless, calls);
    (answer, trials)
}

fn answer(letter: &str, target: &[u32], bdd: &Bdd) -> (Bdd, usize) {
    let list: Vec<BddPointer> = target.iter().map(|p| BddPointer::from_index(*p as usize)).collect();
    let size = target.first().copied().unwrap_or(0) as usize;
    let count = BigUint::new(target.to_vec());
    match letter {
        "u" => (bdd.underapproximate(&list), 0),
        "o" => (bdd.overapproximate(&list), 0),
        "s" => searched(|| bdd.underapproximate_to_size(size), under_size(bdd, size), false),
        "t" => searched(|| bdd.overapproximate_to_size(size), under_size(&bdd.not(), size), true),
        "c" => searched(|| bdd.underapproximate_to_cardinality(&count), under_count(bdd, &count), false),
        "d" => {
            let negation = bdd.not();
            let again = match bdd.exact_cardinality() {
                known if count <= known => None,
                known => under_count(&negation, &(negation.exact_cardinality() + known - &count)),
            };
            searched(|| bdd.overapproximate_to_cardinality(&count), again, true)
        }
        _ => panic!("no such operation"),
    }
}

fn main() {
    for line in stdin().lock().lines() {
        let line = line.expect("a line");
        let (letter, rest) = line.split_at(1);
        let numbers: Vec<u32> = rest.split_whitespace().map(|x| x.parse().expect("a number")).collect();
        let (target, words) = numbers[1..].split_at(numbers[0] as usize);
        let (bdd, trials) = answer(letter, target, &Bdd::from_words(words));
        let words: Vec<String> = bdd.to_words().iter().map(|x| x.to_string()).collect();
        println!("{} {} {}", bdd.size(), trials, words.join(" "));
    }
}
