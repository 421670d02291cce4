//! The expected answer: refusals by the reading of document 01, everything else by the Rust text. For cuts, where the Rust has
//! no trials, the reading makes the whole search too; its words must be the Rust's. Where the array meets a target, the Rust gives
//! the array; without as_is (02 E8) the words must be those of the Rust's own reduction of it.
use crate::limits::COUNT_WORDS;
use crate::reading;
use crate::request::{Argument, Operation::*, Reply, Request};
use num_bigint::BigUint;
use rust_text::{Bdd, BddPointer, BddVariable};

fn count_words(count: &BigUint) -> Vec<u64> {
    let mut digits: Vec<u64> = count.to_u32_digits().iter().map(|w| *w as u64).collect();
    assert!(digits.len() <= COUNT_WORDS, "a count of more than {COUNT_WORDS} words");
    digits.resize(COUNT_WORDS, 0);
    digits
}

fn weights(words: &[u32]) -> Vec<BigUint> {
    Bdd::from_words(words).node_valuation_weights()
}

/// The words of all weights. The Rust panics for the one-node diagram, which 02 E2 gives one weight of 0.
fn weight_words(words: &[u32]) -> Vec<u32> {
    let weights = if words.len() == 3 { vec![BigUint::default()] } else { weights(words) };
    weights.iter().flat_map(count_words).map(|w| w as u32).collect()
}

fn count(words: &[u32]) -> BigUint {
    Bdd::from_words(words).exact_cardinality()
}

fn pointers(list: &[u32]) -> Vec<BddPointer> {
    list.iter().map(|p| BddPointer::from_index(*p as usize)).collect()
}

fn values_of(request: &Request) -> usize {
    match request.operation() {
        Validate | SizePerVariable | NodeValuationWeights => 0,
        ExactCardinality | ExactClauseCardinality | CountAndWeights => COUNT_WORDS,
        UnderapproximateToSize | OverapproximateToSize | UnderapproximateToCardinality | OverapproximateToCardinality => 2,
        _ => 1,
    }
}

/// The Rust's `validate` says the same of words that it can be asked of, but for rows 3, 6 and 7, where it may say either.
fn held_to_validate(words: &[u32], refused: Option<u32>) {
    let sayable = !words.is_empty() && words.len() % 3 == 0 && words.chunks(3).all(|node| node[0] <= u16::MAX as u32);
    if !sayable || matches!(refused, Some(3 | 4 | 5 | 7)) || refused == Some(6) && words.len() > 6 {
        return;
    }
    assert_eq!(Bdd::from_words(words).validate().is_ok(), refused.is_none(), "validate of {words:?}");
}

/// A listed root made 01 and makes the Rust answer a constant, whatever terminals are listed beside it; 02 E10 refuses them.
fn held_to_listed_root(request: &Request, list: &[u32]) {
    let words = &request.words;
    if list.contains(&(words.len() as u32 / 3 - 1)) {
        let (bdd, over) = (Bdd::from_words(words), request.operation() == Overapproximate);
        let answer = if over { bdd.overapproximate(&pointers(list)) } else { bdd.underapproximate(&pointers(list)) };
        assert_eq!(answer.to_words(), reading::constant(words[0], over), "a cut by {list:?} of {words:?}");
    }
}

/// A size of 0, and from above of 1, made 01 and makes the Rust answer a constant: false from below, true from above, also from
/// false. 02 E5 refuses them, but for over to 1 of what holds for no valuation, which gives false.
fn held_to_small_size(request: &Request, target: u32) {
    let (bdd, over) = (Bdd::from_words(&request.words), request.operation() == OverapproximateToSize);
    let answer = if over { bdd.overapproximate_to_size(target as usize) } else { bdd.underapproximate_to_size(target as usize) };
    assert_eq!(answer.to_words(), reading::constant(request.words[0], over), "a cut to {target} of {:?}", request.words);
}

/// The Rust's reduction, beside the reading's: reduced, and of the same count.
fn reduced(words: &[u32]) -> Vec<u32> {
    let bdd = Bdd::from_words(words);
    let found = reading::renumber(&bdd.and(&bdd).to_words());
    assert_eq!(found, reading::reduce(words), "the reduction of {words:?}");
    let reduced = Bdd::from_words(&found);
    assert_eq!(reduced.exact_cardinality(), bdd.exact_cardinality());
    assert!(reduced.validate().is_ok());
    found
}

/// Whether accepted words meet the request's target as they are given; no where it has none.
pub fn met(request: &Request) -> bool {
    let words = &request.words;
    match &request.argument {
        Argument::Size(t) => reading::size_is_met(words.len() / 3, *t as usize),
        Argument::Count(k) => {
            let over = request.operation() == OverapproximateToCardinality;
            reading::count_is_met(over, &BigUint::from_slice(k), &count(words))
        }
        _ => false,
    }
}

pub fn expected(request: &Request) -> Reply {
    let refuse = |(number, place)| Reply { number, place, nodes: 0, vars: 0, values: vec![0; values_of(request)], written: vec![] };
    let words = &request.words;
    let checked = reading::check(words, request.room, request.output_kind(), request.output);
    held_to_validate(words, checked.err().map(|r| r.0));
    let (n, v) = match checked {
        Ok(counts) => counts,
        Err(refused) => return refuse(refused),
    };
    let target = match &request.argument {
        Argument::Count(k) => BigUint::from_slice(k),
        Argument::Size(t) => BigUint::from(*t),
        _ => BigUint::default(),
    };
    let later = match (request.operation(), &request.argument) {
        (_, Argument::List(list)) => reading::check_list(n, list),
        (UnderapproximateToSize, Argument::Size(t)) => reading::check_size(false, *t, &count(words)),
        (OverapproximateToSize, Argument::Size(t)) => reading::check_size(true, *t, &count(words)),
        (UnderapproximateToCardinality, _) => reading::check_count(n, v, false, &target),
        (OverapproximateToCardinality, _) => reading::check_count(n, v, true, &target),
        _ => Ok(()),
    };
    if let Err(refused) = later {
        if let (14, Argument::List(list)) = (refused.0, &request.argument) {
            held_to_listed_root(request, list);
        }
        if let (18, Argument::Size(t)) = (refused.0, &request.argument) {
            held_to_small_size(request, *t);
        }
        return refuse(refused);
    }

    let bdd = Bdd::from_words(words);
    let diagram = |words: Vec<u32>| (vec![words.len() as u64 / 3], words);
    // the Rust's result beside the reading's
    let by_list = |rust: Bdd, list: &[u32], to: u32| {
        let found = reading::renumber(&rust.to_words());
        assert_eq!(found, reading::cut(words, list, to), "a cut by {list:?} of {words:?}");
        diagram(found)
    };
    let as_is = request.as_is;
    let to_target = |rust: Bdd, (found, trials): (Vec<u32>, usize)| {
        let mut words_of_rust = if trials == 0 { rust.to_words() } else { reading::renumber(&rust.to_words()) };
        if met(request) {
            assert_eq!((&words_of_rust, trials), (words, 0), "{target} is met by {words:?}");
            words_of_rust = if as_is { words_of_rust } else { reduced(words) };
        }
        assert_eq!(words_of_rust, found, "a cut to {target} of {words:?}");
        (vec![found.len() as u64 / 3, trials as u64], found)
    };
    let (values, written) = match (request.operation(), &request.argument) {
        (Validate, _) => (vec![], vec![]),
        (ExactCardinality, _) => (count_words(&bdd.exact_cardinality()), vec![]),
        (ExactClauseCardinality, _) => (count_words(&bdd.exact_clause_cardinality()), vec![]),
        (Cardinality, _) => (vec![bdd.cardinality().to_bits()], vec![]),
        (Size, _) => (vec![bdd.size() as u64], vec![]),
        (NumVars, _) => (vec![bdd.num_vars() as u64], vec![]),
        (IsTrue, _) => (vec![bdd.is_true() as u64], vec![]),
        (IsFalse, _) => (vec![bdd.is_false() as u64], vec![]),
        (IsClause, _) => (vec![bdd.is_clause() as u64], vec![]),
        (IsValuation, _) => (vec![bdd.is_valuation() as u64], vec![]),
        (SizePerVariable, _) => {
            let sizes = bdd.size_per_variable();
            (vec![], (0..v).map(|x| sizes.get(&BddVariable::from_index(x)).map_or(0, |s| *s as u32)).collect())
        }
        (NodeValuationWeights, _) => (vec![], weight_words(words)),
        (CountAndWeights, _) => (count_words(&bdd.exact_cardinality()), weight_words(words)),
        (Reduce, _) => diagram(reduced(words)),
        (Not, _) => {
            let found = bdd.not().to_words();
            assert_eq!(found, reading::not(words), "the negation of {words:?}");
            let all = BigUint::from(1u32) << v;
            assert_eq!(bdd.exact_cardinality() + count(&found), all);
            diagram(found)
        }
        (Underapproximate, Argument::List(list)) => by_list(bdd.underapproximate(&pointers(list)), list, 0),
        (Overapproximate, Argument::List(list)) => by_list(bdd.overapproximate(&pointers(list)), list, 1),
        (UnderapproximateToSize, Argument::Size(t)) => {
            to_target(bdd.underapproximate_to_size(*t as usize), reading::under_to_size(words, *t as usize, as_is, &weights))
        }
        (OverapproximateToSize, Argument::Size(1)) => {
            held_to_small_size(request, 1);
            (vec![1, 0], reading::constant(v as u32, false))
        }
        (OverapproximateToSize, Argument::Size(t)) => {
            to_target(bdd.overapproximate_to_size(*t as usize), reading::over_to_size(words, *t as usize, as_is, &weights))
        }
        (UnderapproximateToCardinality, _) => {
            to_target(bdd.underapproximate_to_cardinality(&target), reading::under_to_count(words, &target, as_is, &count, &weights))
        }
        (OverapproximateToCardinality, _) => {
            to_target(bdd.overapproximate_to_cardinality(&target), reading::over_to_count(words, &target, as_is, &count, &weights))
        }
        _ => unreachable!("an operation without its argument"),
    };
    Reply { number: 0, place: 0, nodes: n, vars: v as u32, values, written }
}
