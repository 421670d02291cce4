//! Decision diagrams cut, counted and checked, with every function of the library below proved to meet its contract.
//!
//! A diagram is a slice of 32-bit words, three for a node: variable, low link, high link. Node 0 is the zero terminal
//! `(v, 0, 0)`, node 1 the one terminal `(v, 1, 1)`, with `v` the variable count; one node alone is false, two are true. The
//! root is the last node. At most [`MOST_NODES`] nodes and [`MOST_VARS`] variables; nodes may stand in any order.
//!
//! Any words may be offered. What is no diagram is refused with a number, a place and a sentence ([`Refusal`]): *the diagram's
//! own* refusals are 1 to 12 and 17. Each function here allocates its output and its working room, so that 4, 5, 32 and 54 don't come
//! up; in [`lent`] the caller lends them. [`swapping`] is for who comes from biodivine-lib-bdd.
//!
//! ```
//! # fn main() -> Result<(), houayletan::Refusal> {
//! // x2, or x0 and x1
//! let words = [3, 0, 0, 3, 1, 1, 2, 0, 1, 1, 2, 1, 0, 2, 3];
//! let accepted = houayletan::validate(&words)?;
//! assert_eq!((accepted.nodes, accepted.vars), (5, 3));
//! assert_eq!(houayletan::exact_cardinality(&words)?.to_string(), "5");
//!
//! let refusal = houayletan::validate(&words[..14]).unwrap_err();
//! assert_eq!(refusal.to_string(), "refused 2 at 0: the number of words is not a multiple of three");
//! # Ok(())
//! # }
//! ```
#![warn(missing_docs)]

mod comparison;
mod count;
mod pool;
mod refusal;
mod settings;

#[allow(missing_docs)]
pub mod lent;
pub mod limits;
pub mod swapping;

pub use comparison::{compare, Comparison, RefusedComparison, Valuation};
pub use count::Count;
pub use lent::Signal;
pub use limits::{MOST_NODES, MOST_VARS};
pub use pool::Pool;
pub use refusal::Refusal;
pub use settings::{read_settings, read_settings_v1, write_settings, Direction, Setting, Target};

use limits::{BYTES_PER_NODE, COUNT_WORDS};

/// The counts of an accepted diagram.
#[derive(Clone, Copy, Debug, Eq, PartialEq)]
pub struct Accepted {
    /// How many nodes the array has.
    pub nodes: usize,
    /// How many variables there are.
    pub vars: u32,
}

/// What a cut to a target gives.
#[derive(Clone, Debug, Eq, PartialEq)]
pub struct Cut {
    /// The diagram.
    pub words: Vec<u32>,
    /// How many cuts by a list the search made, the last included; 0 where it made none.
    pub trials: usize,
}

fn accepted(verdict: lent::Verdict) -> Result<Accepted, Refusal> {
    let lent::Verdict { number, place, nodes, vars } = verdict;
    if number == 0 {
        Ok(Accepted { nodes, vars })
    } else {
        Err(Refusal { number, place })
    }
}

/// How many nodes to make room for. More than [`MOST_NODES`] are refused whatever the room.
fn nodes_of(words: &[u32]) -> usize {
    (words.len() / 3).min(MOST_NODES)
}

fn room_for(words: &[u32]) -> Vec<u32> {
    vec![0; lent::room_for(nodes_of(words))]
}

/// The diagram that a function of the library writes to an output of the right length.
fn diagram(words: &[u32], write: impl FnOnce(&mut [u32], &mut [u32]) -> lent::Diagram) -> Result<Vec<u32>, Refusal> {
    let mut output = vec![0; lent::output_for(nodes_of(words))];
    let made = write(&mut room_for(words), &mut output);
    accepted(made.verdict)?;
    output.truncate(3 * made.nodes);
    Ok(output)
}

/// The check of any words as a diagram. Refusals: the diagram's own.
///
/// ```
/// assert!(houayletan::validate(&[7, 0, 0]).is_ok());
/// let refusal = houayletan::validate(&[1, 0, 0, 1, 1, 1, 0, 0, 3]).unwrap_err();
/// assert_eq!((refusal.number, refusal.place), (10, 2));
/// ```
pub fn validate(words: &[u32]) -> Result<Accepted, Refusal> {
    accepted(lent::validate(words, &mut room_for(words)))
}

/// How many of the 2^v valuations the diagram holds for. Refusals: the diagram's own.
///
/// ```
/// let v = houayletan::MOST_VARS as u32;
/// assert_eq!(houayletan::exact_cardinality(&[v, 0, 0, v, 1, 1])?, houayletan::Count::power_of_two(v));
/// // x0, of so many variables
/// assert_eq!(houayletan::exact_cardinality(&[v, 0, 0, v, 1, 1, 0, 0, 1])?, houayletan::Count::power_of_two(v - 1));
/// # Ok::<(), houayletan::Refusal>(())
/// ```
pub fn exact_cardinality(words: &[u32]) -> Result<Count, Refusal> {
    let counted = lent::exact_cardinality(words, &mut room_for(words));
    accepted(counted.verdict).map(|_| counted.count)
}

/// How many paths lead from the root to node 1, in the array as it stands. Refusals: the diagram's own.
///
/// ```
/// let words = [3, 0, 0, 3, 1, 1, 2, 0, 1, 1, 2, 1, 0, 2, 3];
/// assert_eq!(houayletan::exact_clause_cardinality(&words)?.to_string(), "3");
/// # Ok::<(), houayletan::Refusal>(())
/// ```
pub fn exact_clause_cardinality(words: &[u32]) -> Result<Count, Refusal> {
    let counted = lent::exact_clause_cardinality(words, &mut room_for(words));
    accepted(counted.verdict).map(|_| counted.count)
}

/// The count, and for each node its weight: how many valuations that the diagram holds for have a path that visits it. Costs
/// what the weights alone do. Refusals: the diagram's own.
///
/// ```
/// let words = [3, 0, 0, 3, 1, 1, 2, 0, 1, 1, 2, 1, 0, 2, 3];
/// let (count, weights) = houayletan::count_and_weights(&words)?;
/// assert_eq!(count, 5u32.into());
/// assert_eq!(weights, [0u32, 5, 3, 3, 5].map(houayletan::Count::from));
/// // the one-node diagram
/// assert_eq!(houayletan::count_and_weights(&[3, 0, 0])?, (0u32.into(), vec![0u32.into()]));
/// # Ok::<(), houayletan::Refusal>(())
/// ```
pub fn count_and_weights(words: &[u32]) -> Result<(Count, Vec<Count>), Refusal> {
    let mut output = vec![0; COUNT_WORDS * nodes_of(words)];
    let counted = lent::count_and_weights(words, &mut room_for(words), &mut output);
    accepted(counted.verdict)?;
    Ok((counted.count, output.chunks_exact(COUNT_WORDS).map(|w| Count::new(w.try_into().unwrap())).collect()))
}

/// The weights alone. Refusals: the diagram's own.
///
/// ```
/// let words = [3, 0, 0, 3, 1, 1, 2, 0, 1, 1, 2, 1, 0, 2, 3];
/// let weights = houayletan::node_valuation_weights(&words)?;
/// assert_eq!(weights, [0u32, 5, 3, 3, 5].map(houayletan::Count::from));
/// # Ok::<(), houayletan::Refusal>(())
/// ```
pub fn node_valuation_weights(words: &[u32]) -> Result<Vec<Count>, Refusal> {
    count_and_weights(words).map(|(_, weights)| weights)
}

/// The reduced diagram of the same function: no node with low = high, no two equal nodes, only reachable ones; nodes after
/// the terminals numbered on the way back, low branch first, root last. Refusals: the diagram's own.
///
/// ```
/// assert_eq!(houayletan::reduce(&[1, 0, 0, 1, 1, 1, 0, 1, 1])?, [1, 0, 0, 1, 1, 1]);
/// # Ok::<(), houayletan::Refusal>(())
/// ```
pub fn reduce(words: &[u32]) -> Result<Vec<u32>, Refusal> {
    diagram(words, |room, output| lent::reduce(words, room, output))
}

/// The count as an `f64`: exact up to 2^53; beyond, each node's sum is rounded once. Refusals: the diagram's own.
///
/// ```
/// let words = [3, 0, 0, 3, 1, 1, 2, 0, 1, 1, 2, 1, 0, 2, 3];
/// assert_eq!(houayletan::cardinality(&words)?, 5.0);
/// # Ok::<(), houayletan::Refusal>(())
/// ```
pub fn cardinality(words: &[u32]) -> Result<f64, Refusal> {
    let counted = lent::cardinality(words, &mut room_for(words));
    accepted(counted.verdict).map(|_| counted.count)
}

/// How many nodes the array has. Refusals: the diagram's own.
///
/// ```
/// assert_eq!(houayletan::size(&[3, 0, 0, 3, 1, 1]), Ok(2));
/// ```
pub fn size(words: &[u32]) -> Result<usize, Refusal> {
    let said = lent::size(words, &mut room_for(words));
    accepted(said.verdict).map(|_| said.amount)
}

/// How many variables there are. Refusals: the diagram's own.
///
/// ```
/// assert_eq!(houayletan::num_vars(&[3, 0, 0, 3, 1, 1]), Ok(3));
/// ```
pub fn num_vars(words: &[u32]) -> Result<usize, Refusal> {
    let said = lent::num_vars(words, &mut room_for(words));
    accepted(said.verdict).map(|_| said.amount)
}

/// Whether the array has two nodes. Refusals: the diagram's own.
///
/// ```
/// assert_eq!(houayletan::is_true(&[3, 0, 0, 3, 1, 1]), Ok(true));
/// ```
pub fn is_true(words: &[u32]) -> Result<bool, Refusal> {
    let said = lent::is_true(words, &mut room_for(words));
    accepted(said.verdict).map(|_| said.amount == 1)
}

/// Whether the array has one node. Refusals: the diagram's own.
///
/// ```
/// assert_eq!(houayletan::is_false(&[3, 0, 0, 3, 1, 1]), Ok(false));
/// ```
pub fn is_false(words: &[u32]) -> Result<bool, Refusal> {
    let said = lent::is_false(words, &mut room_for(words));
    accepted(said.verdict).map(|_| said.amount == 1)
}

/// Whether the diagram is one conjunction of literals. A yes is right; a no is right for a reduced array. Refusals: the
/// diagram's own.
///
/// ```
/// // x0 and not x1
/// assert_eq!(houayletan::is_clause(&[3, 0, 0, 3, 1, 1, 1, 1, 0, 0, 0, 2]), Ok(true));
/// ```
pub fn is_clause(words: &[u32]) -> Result<bool, Refusal> {
    let said = lent::is_clause(words, &mut room_for(words));
    accepted(said.verdict).map(|_| said.amount == 1)
}

/// Whether the diagram holds for one valuation alone. A yes is right; a no is right for a reduced array. Refusals: the
/// diagram's own.
///
/// ```
/// // x0 and not x1, of three variables and of two
/// assert_eq!(houayletan::is_valuation(&[3, 0, 0, 3, 1, 1, 1, 1, 0, 0, 0, 2]), Ok(false));
/// assert_eq!(houayletan::is_valuation(&[2, 0, 0, 2, 1, 1, 1, 1, 0, 0, 0, 2]), Ok(true));
/// ```
pub fn is_valuation(words: &[u32]) -> Result<bool, Refusal> {
    let said = lent::is_valuation(words, &mut room_for(words));
    accepted(said.verdict).map(|_| said.amount == 1)
}

/// How many nodes each variable has, one number a variable. Refusals: the diagram's own.
///
/// ```
/// let words = [3, 0, 0, 3, 1, 1, 2, 0, 1, 2, 1, 0, 0, 2, 3];
/// assert_eq!(houayletan::size_per_variable(&words)?, [1, 0, 2]);
/// # Ok::<(), houayletan::Refusal>(())
/// ```
pub fn size_per_variable(words: &[u32]) -> Result<Vec<u32>, Refusal> {
    let mut output = vec![0; MOST_VARS];
    let accepted = accepted(lent::size_per_variable(words, &mut room_for(words), &mut output))?;
    output.truncate(accepted.vars as usize);
    Ok(output)
}

/// The negation: constants exchange; else links 0 and 1 exchange and every node keeps its place. Refusals: the diagram's own.
///
/// ```
/// assert_eq!(houayletan::not(&[1, 0, 0, 1, 1, 1, 0, 0, 1])?, [1, 0, 0, 1, 1, 1, 0, 1, 0]);
/// assert_eq!(houayletan::not(&[1, 0, 0])?, [1, 0, 0, 1, 1, 1]);
/// # Ok::<(), houayletan::Refusal>(())
/// ```
pub fn not(words: &[u32]) -> Result<Vec<u32>, Refusal> {
    diagram(words, |room, output| lent::not(words, room, output))
}

/// Links to the listed nodes go to 0, then the diagram is reduced; a listed root gives false. Refusals: the diagram's own, then
/// 13 and 14.
///
/// ```
/// let words = [3, 0, 0, 3, 1, 1, 2, 0, 1, 1, 2, 1, 0, 2, 3];
/// assert_eq!(houayletan::underapproximate(&words, &[3])?, [3, 0, 0, 3, 1, 1, 2, 0, 1, 0, 2, 0]);
/// let refusal = houayletan::underapproximate(&words, &[2, 9]).unwrap_err();
/// assert_eq!((refusal.number, refusal.place), (13, 1));
/// let refusal = houayletan::underapproximate(&words, &[4, 0]).unwrap_err();
/// assert_eq!(refusal.to_string(), "refused 14 at 1: the pointer at place 1 of the list is a terminal");
/// # Ok::<(), houayletan::Refusal>(())
/// ```
pub fn underapproximate(words: &[u32], list: &[u32]) -> Result<Vec<u32>, Refusal> {
    diagram(words, |room, output| lent::underapproximate(words, list, room, output))
}

/// Links to the listed nodes go to 1, then the diagram is reduced; a listed root gives true. Refusals: the diagram's own, then
/// 13 and 14.
///
/// ```
/// let words = [3, 0, 0, 3, 1, 1, 2, 0, 1, 1, 2, 1, 0, 2, 3];
/// assert_eq!(houayletan::overapproximate(&words, &[3])?, [3, 0, 0, 3, 1, 1, 2, 0, 1, 0, 2, 1]);
/// assert_eq!(houayletan::overapproximate(&words, &[4])?, [3, 0, 0, 3, 1, 1]);
/// assert_eq!(houayletan::overapproximate(&[3, 0, 0], &[0]).unwrap_err().number, 14);
/// # Ok::<(), houayletan::Refusal>(())
/// ```
pub fn overapproximate(words: &[u32], list: &[u32]) -> Result<Vec<u32>, Refusal> {
    diagram(words, |room, output| lent::overapproximate(words, list, room, output))
}

fn cut(words: &[u32], write: impl FnOnce(&mut [u32], &mut [u32]) -> lent::Approximation) -> Result<Cut, Refusal> {
    let mut trials = 0;
    let words = diagram(words, |room, output| {
        let made = write(room, output);
        trials = made.trials;
        lent::Diagram { verdict: made.verdict, nodes: made.nodes }
    })?;
    Ok(Cut { words, trials })
}

/// Holds for fewer valuations and has at most `target` nodes; the nodes of least weight go first. A diagram of no more than
/// `target` nodes is not cut: it comes out reduced, or where `as_is` is set with its words as they are. Any other gives false for
/// targets 1 and 2, and is searched whatever `as_is`, also where it is small enough once it is reduced. Refusals: the diagram's
/// own, then 18 for target 0.
///
/// ```
/// let words = [3, 0, 0, 3, 1, 1, 2, 0, 1, 1, 2, 1, 0, 2, 3];
/// let cut = houayletan::underapproximate_to_size(&words, 4, false)?;
/// assert_eq!((cut.words, cut.trials), (vec![3, 0, 0, 3, 1, 1, 2, 0, 1, 0, 2, 0], 2));
/// assert_eq!(houayletan::underapproximate_to_size(&words, 1, false)?.words, [3, 0, 0]);
/// assert_eq!(houayletan::underapproximate_to_size(&words, 0, false).unwrap_err().number, 18);
///
/// // x1, under a root with low = high
/// let words = [2, 0, 0, 2, 1, 1, 1, 0, 1, 0, 2, 2];
/// let met = houayletan::underapproximate_to_size(&words, 4, false)?;
/// assert_eq!((met.words, met.trials), (vec![2, 0, 0, 2, 1, 1, 1, 0, 1], 0));
/// let met = houayletan::underapproximate_to_size(&words, 4, true)?;
/// assert_eq!((met.words, met.trials), (words.to_vec(), 0));
/// // one node fewer is searched for
/// let cut = houayletan::underapproximate_to_size(&words, 3, true)?;
/// assert_eq!((cut.words, cut.trials), (vec![2, 0, 0, 2, 1, 1, 1, 0, 1], 1));
/// # Ok::<(), houayletan::Refusal>(())
/// ```
pub fn underapproximate_to_size(words: &[u32], target: u32, as_is: bool) -> Result<Cut, Refusal> {
    cut(words, |room, output| lent::underapproximate_to_size(words, target, as_is, room, output))
}

/// Holds for more valuations and has at most `target` nodes: the negation is cut and negated back. A diagram of no more than
/// `target` nodes is not cut: it comes out reduced, or where `as_is` is set with its words as they are. Any other gives true for
/// target 2 and false for target 1. Refusals: the diagram's own, then 18 for target 0, and for target 1 where the diagram holds
/// for some valuation.
///
/// ```
/// let words = [3, 0, 0, 3, 1, 1, 2, 0, 1, 1, 2, 1, 0, 2, 3];
/// let cut = houayletan::overapproximate_to_size(&words, 4, false)?;
/// assert_eq!((cut.words, cut.trials), (vec![3, 0, 0, 3, 1, 1, 2, 0, 1, 0, 2, 1], 2));
/// // false, in three nodes
/// let words_of_false = [1, 0, 0, 1, 1, 1, 0, 0, 0];
/// assert_eq!(houayletan::overapproximate_to_size(&words_of_false, 1, false)?.words, [1, 0, 0]);
/// assert_eq!(houayletan::overapproximate_to_size(&words_of_false, 3, false)?.words, [1, 0, 0]);
/// assert_eq!(houayletan::overapproximate_to_size(&words_of_false, 3, true)?.words, words_of_false);
/// let refusal = houayletan::overapproximate_to_size(&words, 1, false).unwrap_err();
/// assert_eq!(refusal.to_string(), "refused 18 at 0: no answer has so few nodes; 2 are always enough");
/// # Ok::<(), houayletan::Refusal>(())
/// ```
pub fn overapproximate_to_size(words: &[u32], target: u32, as_is: bool) -> Result<Cut, Refusal> {
    cut(words, |room, output| lent::overapproximate_to_size(words, target, as_is, room, output))
}

/// Holds for at most `target` valuations, all of them the diagram's. Where the count is no more than `target`, nothing is cut: the
/// diagram comes out reduced, or where `as_is` is set with its words as they are. 0 gives the one-node false, whatever `as_is`.
/// Refusals: the diagram's own, then 19 for the two-node diagram.
///
/// ```
/// let words = [3, 0, 0, 3, 1, 1, 2, 0, 1, 1, 2, 1, 0, 2, 3];
/// let cut = houayletan::underapproximate_to_cardinality(&words, 4u32.into(), false)?;
/// assert_eq!((cut.words, cut.trials), (vec![3, 0, 0, 3, 1, 1, 2, 0, 1, 0, 2, 0], 1));
/// // x1, under a root with low = high: two valuations
/// let words = [2, 0, 0, 2, 1, 1, 1, 0, 1, 0, 2, 2];
/// assert_eq!(houayletan::underapproximate_to_cardinality(&words, 2u32.into(), false)?.words, words[..9]);
/// assert_eq!(houayletan::underapproximate_to_cardinality(&words, 2u32.into(), true)?.words, words);
/// # Ok::<(), houayletan::Refusal>(())
/// ```
pub fn underapproximate_to_cardinality(words: &[u32], target: Count, as_is: bool) -> Result<Cut, Refusal> {
    cut(words, |room, output| lent::underapproximate_to_cardinality(words, target, as_is, room, output))
}

/// Holds for at least `target` valuations, all of the diagram's among them. Where the count is no less than `target`, nothing is
/// cut: the diagram comes out reduced, or where `as_is` is set with its words as they are. Refusals: the diagram's own, then 16
/// above 2^v, then 19 for the one-node diagram.
///
/// ```
/// let words = [3, 0, 0, 3, 1, 1, 2, 0, 1, 1, 2, 1, 0, 2, 3];
/// let cut = houayletan::overapproximate_to_cardinality(&words, 8u32.into(), false)?;
/// assert_eq!((cut.words, cut.trials), (vec![3, 0, 0, 3, 1, 1], 0));
/// assert_eq!(houayletan::overapproximate_to_cardinality(&words, 9u32.into(), false).unwrap_err().number, 16);
/// // x1, under a root with low = high: two valuations
/// let words = [2, 0, 0, 2, 1, 1, 1, 0, 1, 0, 2, 2];
/// assert_eq!(houayletan::overapproximate_to_cardinality(&words, 2u32.into(), false)?.words, words[..9]);
/// assert_eq!(houayletan::overapproximate_to_cardinality(&words, 2u32.into(), true)?.words, words);
/// # Ok::<(), houayletan::Refusal>(())
/// ```
pub fn overapproximate_to_cardinality(words: &[u32], target: Count, as_is: bool) -> Result<Cut, Refusal> {
    cut(words, |room, output| lent::overapproximate_to_cardinality(words, target, as_is, room, output))
}

fn stored(answer: lent::Stored) -> Result<usize, Refusal> {
    let lent::Stored { number, place, nodes } = answer;
    if number == 0 { Ok(nodes) } else { Err(Refusal { number, place }) }
}

/// The words of a node file: [`limits::BYTES_PER_NODE`] bytes for each node, variable (2), low link (4) and high link (4), each least
/// byte first. Whether they are a diagram is for the function to say that they are given to. Refusals: 51 without bytes, 53 over
/// [`MOST_NODES`] nodes, 52 where the length is not a multiple of ten.
///
/// ```
/// let bytes = [1, 0, 0, 0, 0, 0, 0, 0, 0, 0, 1, 0, 1, 0, 0, 0, 1, 0, 0, 0];
/// assert_eq!(houayletan::read_as_bytes(&bytes)?, [1, 0, 0, 1, 1, 1]);
/// let refusal = houayletan::read_as_bytes(&bytes[..19]).unwrap_err();
/// assert_eq!(refusal.to_string(), "refused 52 at 0: the length of the file is not a multiple of ten bytes");
/// # Ok::<(), houayletan::Refusal>(())
/// ```
pub fn read_as_bytes(bytes: &[u8]) -> Result<Vec<u32>, Refusal> {
    let mut output = vec![0; 3 * (bytes.len() / BYTES_PER_NODE).min(MOST_NODES)];
    stored(lent::read_as_bytes(bytes, &mut output)).map(|_| output)
}

/// The node file of any words, three for each node. Refusals: 1 without words, 2 where they are no multiple of three, 53 over
/// [`MOST_NODES`] nodes, 55 for a variable that two bytes don't hold.
///
/// ```
/// let words = [3, 0, 0, 3, 1, 1, 2, 0, 1, 1, 2, 1, 0, 2, 3];
/// let bytes = houayletan::write_as_bytes(&words)?;
/// assert_eq!((bytes.len(), &bytes[40..]), (50, &[0, 0, 2, 0, 0, 0, 3, 0, 0, 0][..]));
/// assert_eq!(houayletan::read_as_bytes(&bytes)?, words);
/// let refusal = houayletan::write_as_bytes(&[0, 0, 0, 65536, 0, 0]).unwrap_err();
/// assert_eq!(refusal.to_string(), "refused 55 at 1: node 1 has a variable over 65,535");
/// # Ok::<(), houayletan::Refusal>(())
/// ```
pub fn write_as_bytes(words: &[u32]) -> Result<Vec<u8>, Refusal> {
    let mut bytes = vec![0; lent::bytes_for(nodes_of(words))];
    stored(lent::write_as_bytes(words, &mut bytes)).map(|_| bytes)
}

#[cfg(test)]
mod tests {
    use super::*;

    #[test]
    fn refusals_reach_the_caller() {
        let number = |words: &[u32]| validate(words).map_err(|r| (r.number, r.place));
        assert_eq!(number(&[]), Err((1, 0)));
        assert_eq!(number(&[1, 2]), Err((2, 0)));
        assert_eq!(number(&vec![0; 3 * (MOST_NODES + 1)]), Err((3, 0)));
        assert_eq!(number(&vec![0; 3 * MOST_NODES]), Err((6, 1)));
        assert_eq!(number(&[MOST_VARS as u32 + 1, 0, 0]), Err((7, 0)));
        assert_eq!(number(&[1, 0, 0, 1, 1, 1, 1, 0, 1]), Err((8, 2)));
        assert_eq!(number(&[1, 0, 0, 1, 1, 1, 0, 3, 1]), Err((9, 2)));
        assert_eq!(number(&[1, 0, 0, 1, 1, 1, 0, 2, 2]), Err((11, 2)));
        assert_eq!(number(&[1, 0, 0, 1, 1, 1, 0, 1, 2, 0, 2, 1]), Err((17, 2)));
        assert_eq!(number(&[1, 0, 0, 1, 1, 1, 0, 0, 1, 0, 0, 1]), Err((12, 2)));
        assert_eq!(count_and_weights(&[0, 0, 0, 0]).unwrap_err().number, 2);
        assert_eq!(node_valuation_weights(&[]).unwrap_err().number, 1);
        assert_eq!(reduce(&[]).unwrap_err().number, 1);
    }

    #[test]
    fn every_number_has_a_sentence() {
        for number in [3, 53] {
            let sentence = Refusal { number, place: 0 }.sentence();
            assert_eq!(sentence.replace(',', ""), format!("there are more than {MOST_NODES} nodes"));
        }
        for number in (1..=19).filter(|n| *n != 15).chain([21, 22, 24]).chain(31..=39).chain([46, 47]).chain(51..=55) {
            let refusal = Refusal { number, place: 7 };
            assert!(!refusal.sentence().contains("no table"), "{number}");
            assert!(refusal.to_string().starts_with(&format!("refused {number} at 7: ")));
        }
    }

    #[test]
    fn a_flag_matters_only_where_the_target_is_met() {
        // x1, under a root with low = high: four nodes, two of the four valuations
        let words = [2, 0, 0, 2, 1, 1, 1, 0, 1, 0, 2, 2];
        let all = |size: u32, below: u32, above: u32, as_is: bool| {
            [
                underapproximate_to_size(&words, size, as_is),
                overapproximate_to_size(&words, size, as_is),
                underapproximate_to_cardinality(&words, below.into(), as_is),
                overapproximate_to_cardinality(&words, above.into(), as_is),
            ]
            .map(|cut| cut.map(|cut| (cut.words, cut.trials)).unwrap())
        };
        for (as_is, kept) in [(false, 9), (true, 12)] {
            assert_eq!(vec![(words[..kept].to_vec(), 0); 4], all(4, 2, 2, as_is));
            let reduced = (words[..9].to_vec(), 1);
            assert_eq!(all(3, 1, 3, as_is), [reduced.clone(), reduced, (vec![2, 0, 0], 1), (vec![2, 0, 0, 2, 1, 1], 1)]);
            assert_eq!(underapproximate_to_cardinality(&words, Count::ZERO, as_is), Ok(Cut { words: vec![2, 0, 0], trials: 0 }));
        }
    }

    #[test]
    fn node_files_of_all_lengths() {
        for nodes in [1, 2, 3, 120, 121, MOST_NODES - 1, MOST_NODES] {
            let words: Vec<u32> = (0..3 * nodes as u32).map(|i| i.wrapping_mul(2654435761) >> if i % 3 == 0 { 16 } else { 0 }).collect();
            let bytes = write_as_bytes(&words).unwrap();
            assert_eq!(bytes.len(), BYTES_PER_NODE * nodes);
            assert_eq!(read_as_bytes(&bytes), Ok(words.clone()));
            let last = words[words.len() - 3..].to_vec();
            let own = [&last[0].to_le_bytes()[..2], &last[1].to_le_bytes(), &last[2].to_le_bytes()].concat();
            assert_eq!(bytes[bytes.len() - BYTES_PER_NODE..], own);
        }
    }

    #[test]
    fn node_files_that_are_refused() {
        let read = |len: usize| read_as_bytes(&vec![7; len]).map_err(|r| (r.number, r.place));
        let most = BYTES_PER_NODE * MOST_NODES;
        assert_eq!(read(0), Err((51, 0)));
        for len in [1, 9, 11, most - 1, most + 1, most + 9] {
            assert_eq!(read(len), Err((52, 0)), "{len}");
        }
        assert_eq!(read(most).map(|words| words.len()), Ok(3 * MOST_NODES));
        for len in [most + 10, most + 11, 2 * most] {
            assert_eq!(read(len), Err((53, 0)), "{len}");
        }
        let write = |words: &[u32]| write_as_bytes(words).map_err(|r| (r.number, r.place));
        assert_eq!(write(&[]), Err((1, 0)));
        assert_eq!(write(&[0, 0]), Err((2, 0)));
        assert_eq!(write(&vec![u32::MAX; 3 * MOST_NODES + 4]), Err((2, 0)));
        assert_eq!(write(&vec![u32::MAX; 3 * MOST_NODES + 3]), Err((53, 0)));
        assert_eq!(write(&[65535, u32::MAX, 65536, 65536, 0, 0, 65536, 0, 0]), Err((55, 1)));
        assert_eq!(write(&[65535, u32::MAX, 65536]), Ok(vec![255, 255, 255, 255, 255, 255, 0, 0, 1, 0]));
    }

    #[test]
    fn node_files_over_what_is_lent() {
        let words = [65535, 1, 2, 3, 4, 5];
        let mut bytes = [0xA5; 22];
        let refused = lent::Stored { number: 54, place: 0, nodes: 0 };
        assert_eq!(lent::write_as_bytes(&words, &mut bytes[..19]), refused);
        assert_eq!(bytes, [0xA5; 22]);
        let done = lent::Stored { number: 0, place: 0, nodes: 2 };
        assert_eq!(lent::write_as_bytes(&words, &mut bytes), done);
        assert_eq!(bytes[..20], [255, 255, 1, 0, 0, 0, 2, 0, 0, 0, 3, 0, 4, 0, 0, 0, 5, 0, 0, 0]);
        assert_eq!(bytes[20..], [0xA5; 2]);
        let mut output = [7; 8];
        assert_eq!(lent::read_as_bytes(&bytes[..20], &mut output[..5]), refused);
        assert_eq!(output, [7; 8]);
        assert_eq!(lent::read_as_bytes(&bytes[..20], &mut output), done);
        assert_eq!(output, [65535, 1, 2, 3, 4, 5, 7, 7]);
    }

    /// The valuations below a number, x0 its highest bit: as many as the number says.
    fn below(number: Count) -> Vec<u32> {
        let v = MOST_VARS as u32;
        let bit = |i: u32| number.words()[i as usize / 32] >> (i % 32) & 1 == 1;
        let mut words = vec![v, 0, 0, v, 1, 1];
        let mut rest = 0;
        for i in (0..v).skip_while(|i| !bit(*i)) {
            words.extend(if bit(i) { [v - 1 - i, 1, rest] } else { [v - 1 - i, rest, 0] });
            rest = words.len() as u32 / 3 - 1;
        }
        words
    }

    #[test]
    fn counts_of_all_words() {
        let sum = |powers: &[u32]| {
            let mut words = [0; COUNT_WORDS];
            powers.iter().for_each(|i| words[*i as usize / 32] |= 1 << (i % 32));
            Count::new(words)
        };
        let (number, lower, higher) = (sum(&[0, 255, 510]), sum(&[255, 510]), sum(&[1, 255, 510]));
        let words = below(number);
        assert_eq!(exact_cardinality(&words), Ok(number));
        assert_eq!(cardinality(&words), Ok(2f64.powi(510)));
        let (count, weights) = count_and_weights(&words).unwrap();
        assert_eq!((count, weights[0], weights[1], weights[2]), (number, Count::ZERO, number, 1u32.into()));
        // a node at bit i weighs the number's bits from i down
        assert_eq!((weights[2 + 255], weights[2 + 509], weights[2 + 510]), (sum(&[0, 255]), sum(&[0, 255]), number));
        assert_eq!(underapproximate_to_cardinality(&words, lower, false), Ok(Cut { words: below(lower), trials: 1 }));
        assert_eq!(overapproximate_to_cardinality(&words, higher, false), Ok(Cut { words: below(higher), trials: 1 }));
        assert_eq!(overapproximate_to_cardinality(&words, sum(&[0, 511]), false).unwrap_err().number, 16);
    }

    #[test]
    fn a_whole_tree() {
        // each node's children are the next level's two nodes; at the last level all say x11
        let mut words = vec![12, 0, 0, 12, 1, 1];
        let mut below = vec![0, 1];
        for var in (1..12u32).rev() {
            let first = words.len() as u32 / 3;
            let width = 1 << (var - 1);
            for i in 0..width {
                let of = |side: usize| below[(2 * i + side) % below.len()];
                words.extend([var, of(0), of(1)]);
            }
            below = (first..first + width as u32).collect();
        }
        assert_eq!(validate(&words), Ok(Accepted { nodes: 2049, vars: 12 }));
        assert_eq!(reduce(&words).unwrap(), [12, 0, 0, 12, 1, 1, 11, 0, 1]);
        assert_eq!(exact_cardinality(&words).unwrap().to_string(), "2048");
        assert_eq!(exact_clause_cardinality(&words).unwrap().to_string(), "1024");
    }
}
