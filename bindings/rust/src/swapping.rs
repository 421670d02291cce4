//! Swapping the shrinking calls of biodivine-lib-bdd 0.6.3 for these. This module has no code: it is a page.
//!
//! # From a `Bdd` by its bytes and back
//!
//! A condition goes over as its node file: ten bytes a node, which is what the crate's `write_as_bytes` and `read_as_bytes` are
//! documented to use. (The file that has them was not at hand, so these bytes could not be held to the crate itself.) In between
//! stands a function of bytes alone. This one shrinks a *keep* condition, which may only grow, to at most so many nodes:
//!
//! ```
//! use houayletan::{overapproximate_to_size, read_as_bytes, write_as_bytes, Refusal};
//!
//! fn shrink_bytes(condition: &[u8], nodes: u32) -> Result<Vec<u8>, Refusal> {
//!     let words = read_as_bytes(condition)?;
//!     let cut = overapproximate_to_size(&words, nodes, false)?;
//!     write_as_bytes(&cut.words)
//! }
//!
//! // x2, or x0 and x1: five nodes
//! let condition = write_as_bytes(&[3, 0, 0, 3, 1, 1, 2, 0, 1, 1, 2, 1, 0, 2, 3])?;
//! let shrunk = shrink_bytes(&condition, 4)?;
//! // x2 or x0
//! assert_eq!(read_as_bytes(&shrunk)?, [3, 0, 0, 3, 1, 1, 2, 0, 1, 0, 2, 1]);
//!
//! // a refusal has a number and a place, and says in words what is wrong
//! match shrink_bytes(&condition, 1) {
//!     Ok(_) => unreachable!("one node is false, and the condition is not"),
//!     Err(refusal) if refusal.number == 18 => assert_eq!(shrink_bytes(&condition, 2)?.len(), 20),
//!     Err(refusal) => return Err(refusal),
//! }
//! let refusal = shrink_bytes(&condition[..49], 4).unwrap_err();
//! assert_eq!(refusal.to_string(), "refused 52 at 0: the length of the file is not a multiple of ten bytes");
//! // the file is whole, and what is in it is no diagram: a link past the nodes
//! let mut damaged = condition.clone();
//! damaged[46] = 9;
//! let refusal = shrink_bytes(&damaged, 4).unwrap_err();
//! assert_eq!(refusal.to_string(), "refused 10 at 4: node 4 has a high link past the nodes");
//! # Ok::<(), Refusal>(())
//! ```
//!
//! Around it, where the crate is there, with a writer and a reader (which ones it takes is the crate's to say; nothing here compiles these lines):
//!
//! ```text
//! let mut condition = vec![];
//! bdd.write_as_bytes(&mut condition)?;
//! let shrunk = Bdd::read_as_bytes(&mut &shrink_bytes(&condition, 4)?[..])?;    // was: bdd.overapproximate_to_size(4)
//! ```
//!
//! A *suppress* condition, which may only lose cases, is cut by [`underapproximate_to_size`](crate::underapproximate_to_size).
//! Several steps in a row need the bytes only at both ends: the functions take and give words.
//!
//! # Which call becomes which
//!
//! `words` are `read_as_bytes` of the condition's bytes.
//!
//! | the crate's, of a `Bdd` | here |
//! |---|---|
//! | `bdd.underapproximate_to_size(n)`, a `usize` | [`underapproximate_to_size(&words, n, as_is)`](crate::underapproximate_to_size), a `u32` |
//! | `bdd.overapproximate_to_size(n)` | [`overapproximate_to_size(&words, n, as_is)`](crate::overapproximate_to_size) |
//! | `bdd.underapproximate_to_cardinality(&k)`, a `BigUint` | [`underapproximate_to_cardinality(&words, k, as_is)`](crate::underapproximate_to_cardinality), a [`Count`](crate::Count) |
//! | `bdd.overapproximate_to_cardinality(&k)` | [`overapproximate_to_cardinality(&words, k, as_is)`](crate::overapproximate_to_cardinality) |
//! | `bdd.underapproximate(&list)`, of `BddPointer`s | [`underapproximate(&words, &list)`](crate::underapproximate), of their indices as `u32` |
//! | `bdd.overapproximate(&list)` | [`overapproximate(&words, &list)`](crate::overapproximate) |
//! | `bdd.node_valuation_weights()`, a `Vec<BigUint>` | [`node_valuation_weights(&words)`](crate::node_valuation_weights), a `Vec<Count>` |
//! | `bdd.exact_cardinality()`, and with the weights | [`exact_cardinality(&words)`](crate::exact_cardinality), [`count_and_weights(&words)`](crate::count_and_weights) |
//! | `bdd.exact_clause_cardinality()` | [`exact_clause_cardinality(&words)`](crate::exact_clause_cardinality) |
//! | `bdd.cardinality()` | [`cardinality(&words)`](crate::cardinality) |
//! | `bdd.validate()`, a text where it fails | [`validate(&words)`](crate::validate), a [`Refusal`](crate::Refusal) |
//! | `bdd.size()`, `bdd.num_vars()` | [`size(&words)`](crate::size), [`num_vars(&words)`](crate::num_vars) |
//! | `bdd.is_true()`, `bdd.is_false()` | [`is_true(&words)`](crate::is_true), [`is_false(&words)`](crate::is_false) |
//! | `bdd.is_clause()`, `bdd.is_valuation()` | [`is_clause(&words)`](crate::is_clause), [`is_valuation(&words)`](crate::is_valuation) |
//! | `bdd.size_per_variable()`, a map | [`size_per_variable(&words)`](crate::size_per_variable), a number for each variable |
//! | `bdd.not()` | [`not(&words)`](crate::not) |
//!
//! A cut to a target gives its trials beside the words ([`Cut`](crate::Cut)). A `BigUint` k becomes a count by its 32-bit digits, least
//! first, with zeros after them: `Count::new`. A [`Count`](crate::Count) goes back by [`words`](crate::Count::words), as in
//! `BigUint::from_slice`.
//!
//! ```
//! use houayletan::{limits::COUNT_WORDS, Count};
//!
//! // what `k.to_u32_digits()` gives of 2^32 + 5
//! let digits = [5, 1];
//! let mut words = [0; COUNT_WORDS];
//! words[..digits.len()].copy_from_slice(&digits);
//! assert_eq!(Count::new(words), Count::from((1u64 << 32) + 5));
//! ```
//!
//! # What differs
//!
//! - **Refusals in place of panics.** Any bytes and any words may be offered; what is no diagram is refused by every function. Where the
//!   crate panics (a terminal in a list, the weights of false, a count above all valuations) or never ends (a constant cut to a count
//!   in between) there is an answer or a refusal too. A pointer past the nodes, which the crate ignores, is refused.
//! - **No answer breaks its target.** A size of 0 is refused 18, and 1 from above where the condition holds for some valuation: the crate
//!   gives one node or two for them. From above to 1, what holds for no valuation gives false; the crate gives true.
//! - **Targets that are met** give the reduced diagram. With `as_is` they give the words as they were, as the crate does.
//! - **Limits.** At most [`MOST_NODES`](crate::MOST_NODES) nodes and [`MOST_VARS`](crate::MOST_VARS) variables; what is larger is refused 53
//!   by the bytes, 3 by the words, and 7.
//! - **What comes back** is reduced, unless `as_is` kept it, and its nodes are numbered by one rule: on the way back from the root, low
//!   branch first, the root last. It has the fewest nodes that its function can have. It was found equal, as a function, to the answer of
//!   the crate's text, except where this list says otherwise; its nodes may stand in another order. So a pointer that was taken from a
//!   `Bdd` means nothing in what comes back. In a list of what is to be cut it is right, since reading the bytes keeps every node's place.
//! - **Variables have numbers, no names.** A `BddVariableSet` stays with the caller.
//!
//! docs/DIFFERENCES.md in the repository has each difference with its smallest input, and says what was compared with the crate's text
//! and what could not be.
