//! The functions of bindings/rust that allocate for themselves give what the expected answer has: the same values and words, or
//! the same refusal. They lend enough, so where a short buffer was asked about there is nothing to hold them to.
use crate::request::{Argument, Operation::*, Reply, Request};
use houayletan::{Count, Refusal};

/// Values and words, in the form of `Reply`.
type Flat = Result<(Vec<u64>, Vec<u32>), Refusal>;

fn count(count: Result<Count, Refusal>) -> Flat {
    count.map(|c| (c.words().map(|w| w as u64).to_vec(), vec![]))
}

fn diagram(words: Result<Vec<u32>, Refusal>) -> Flat {
    words.map(|w| (vec![w.len() as u64 / 3], w))
}

fn cut(cut: Result<houayletan::Cut, Refusal>) -> Flat {
    cut.map(|c| (vec![c.words.len() as u64 / 3, c.trials as u64], c.words))
}

pub fn held_to(request: &Request, expected: &Reply) -> Result<(), String> {
    if matches!(expected.number, 4 | 5) {
        return Ok(());
    }
    let w = &request.words;
    let (list, size, target): (&[u32], u32, Count) = match &request.argument {
        Argument::None => (&[], 0, Count::ZERO),
        Argument::List(list) => (list, 0, Count::ZERO),
        Argument::Size(t) => (&[], *t, Count::ZERO),
        Argument::Count(k) => (&[], 0, Count::new(*k)),
    };
    let said: Flat = match request.operation() {
        Validate => houayletan::validate(w).map(|a| {
            assert_eq!((a.nodes, a.vars), (expected.nodes, expected.vars));
            (vec![], vec![])
        }),
        ExactCardinality => count(houayletan::exact_cardinality(w)),
        ExactClauseCardinality => count(houayletan::exact_clause_cardinality(w)),
        NodeValuationWeights => houayletan::node_valuation_weights(w).map(|c| (vec![], c.iter().flat_map(|c| c.words()).collect())),
        CountAndWeights => houayletan::count_and_weights(w).map(|(count, weights)| {
            (count.words().map(|w| w as u64).to_vec(), weights.iter().flat_map(|c| c.words()).collect())
        }),
        Reduce => diagram(houayletan::reduce(w)),
        Cardinality => houayletan::cardinality(w).map(|c| (vec![c.to_bits()], vec![])),
        Size => houayletan::size(w).map(|x| (vec![x as u64], vec![])),
        NumVars => houayletan::num_vars(w).map(|x| (vec![x as u64], vec![])),
        IsTrue => houayletan::is_true(w).map(|x| (vec![x as u64], vec![])),
        IsFalse => houayletan::is_false(w).map(|x| (vec![x as u64], vec![])),
        IsClause => houayletan::is_clause(w).map(|x| (vec![x as u64], vec![])),
        IsValuation => houayletan::is_valuation(w).map(|x| (vec![x as u64], vec![])),
        SizePerVariable => houayletan::size_per_variable(w).map(|s| (vec![], s)),
        Not => diagram(houayletan::not(w)),
        Underapproximate => diagram(houayletan::underapproximate(w, list)),
        Overapproximate => diagram(houayletan::overapproximate(w, list)),
        UnderapproximateToSize => cut(houayletan::underapproximate_to_size(w, size, request.as_is)),
        OverapproximateToSize => cut(houayletan::overapproximate_to_size(w, size, request.as_is)),
        UnderapproximateToCardinality => cut(houayletan::underapproximate_to_cardinality(w, target, request.as_is)),
        OverapproximateToCardinality => cut(houayletan::overapproximate_to_cardinality(w, target, request.as_is)),
    };
    let wanted: Flat = match expected.number {
        0 => Ok((expected.values.clone(), expected.written.clone())),
        number => Err(Refusal { number, place: expected.place }),
    };
    if said == wanted { Ok(()) } else { Err(format!("expected {wanted:?}, got {said:?}")) }
}
