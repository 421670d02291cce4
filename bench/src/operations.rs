//! The operations that are timed: the Rust text's, and ours where it is exported.
use crate::limits::{COUNT_WORDS, PAIR_WORDS, ROOM_PER_NODE};
use crate::ours;
use num_bigint::BigUint;
use rust_text::{Bdd, BddPointer};
use std::collections::HashSet;
use std::hint::black_box;

/// What the caller lends to ours, made once. The room is zero at the start and left zero by every call; the output is
/// not cleared between calls.
pub struct Lent {
    pub room: Vec<u32>,
    pub output: Vec<u32>,
    /// Of pairs, for comparisons: as long as the longest that was needed, and zero like the room.
    table: Vec<u32>,
}

impl Lent {
    pub fn new(nodes: usize) -> Lent {
        Lent { room: vec![0; ROOM_PER_NODE * nodes], output: vec![0; COUNT_WORDS * nodes], table: vec![] }
    }
}

/// Of the non-terminals but the root, one in so many is in the list that a diagram is cut by: few enough to leave most of it.
const LISTED_ONE_IN: usize = 64;

/// A diagram in both forms, with the list and the targets of the cuts.
pub struct Case {
    pub words: Vec<u32>,
    pub bdd: Bdd,
    pub list: Vec<u32>,
    pub pointers: Vec<BddPointer>,
    pub count: BigUint,
    pub half_count: BigUint,
    pub under_count: BigUint,
    /// Half of the valuations that the diagram doesn't hold for, besides its own.
    pub half_over: BigUint,
    /// The diagram cut by the list, in both forms, and how many pairs of nodes the two reach together.
    pub cut: Option<(Vec<u32>, Bdd, usize)>,
}

/// The pairs of nodes that two diagrams reach together.
fn pairs_of(first: &[u32], second: &[u32]) -> usize {
    let root = |words: &[u32]| words.len() as u32 / 3 - 1;
    let mut met = HashSet::from([(root(first), root(second))]);
    let mut todo: Vec<(u32, u32)> = met.iter().copied().collect();
    while let Some((p, q)) = todo.pop() {
        let level_of = |words: &[u32], p: u32| words[if p < 2 { 0 } else { 3 * p as usize }];
        let level = level_of(first, p).min(level_of(second, q));
        for side in 1..3 {
            let step = |words: &[u32], p: u32| if p >= 2 && level_of(words, p) == level { words[3 * p as usize + side] } else { p };
            let pair = (step(first, p), step(second, q));
            if met.insert(pair) {
                todo.push(pair);
            }
        }
    }
    met.len()
}

impl Case {
    pub fn new(words: Vec<u32>, operation: &Operation) -> Case {
        let bdd = Bdd::from_words(&words);
        let count = if operation.targets { bdd.exact_cardinality() } else { BigUint::from(1u32) };
        let half_over = (&count + (BigUint::from(1u32) << words[0])) / 2u32;
        let list: Vec<u32> = (2..words.len() as u32 / 3 - 1).step_by(LISTED_ONE_IN).collect();
        let pointers: Vec<BddPointer> = list.iter().map(|p| BddPointer::from_index(*p as usize)).collect();
        let cut = operation.beside.then(|| {
            let cut = bdd.underapproximate(&pointers);
            let cut_words = cut.to_words();
            let pairs = pairs_of(&words, &cut_words);
            (cut_words, cut, pairs)
        });
        Case { cut, words, bdd, list, pointers, half_count: &count / 2u32, under_count: &count - 1u32, half_over, count }
    }
    pub fn nodes(&self) -> usize {
        self.words.len() / 3
    }
    /// Our working room and an output: exactly the words that are asked for.
    fn room<'a>(&self, lent: &'a mut Lent) -> &'a mut [u32] {
        &mut lent.room[..ROOM_PER_NODE * self.nodes()]
    }
    fn lent<'a>(&self, lent: &'a mut Lent, output: usize) -> (&'a mut [u32], &'a mut [u32]) {
        (&mut lent.room[..ROOM_PER_NODE * self.nodes()], &mut lent.output[..output * self.nodes()])
    }
}

pub struct Operation {
    pub name: &'static str,
    /// Whether the case needs a count target.
    pub targets: bool,
    /// Whether it needs the diagram's cut.
    pub beside: bool,
    pub rust: fn(&Case),
    pub ours: Option<fn(&Case, &mut Lent)>,
    /// Panics where the two sides answer differently.
    pub compare: fn(&Case, &mut Lent),
}

pub const OPERATIONS: [Operation; 20] = [
    Operation {
        name: "validate",
        targets: false,
        beside: false,
        rust: |c| _ = black_box(c.bdd.validate()),
        ours: Some(|c, lent| _ = black_box(ours::validate(&c.words, c.room(lent)))),
        compare: |c, lent| {
            let ours = ours::validate(&c.words, c.room(lent));
            assert!(c.bdd.validate().is_ok());
            assert_eq!((ours.nodes, ours.vars), (c.bdd.size(), c.bdd.num_vars() as u32));
        },
    },
    Operation {
        name: "exact_cardinality",
        targets: false,
        beside: false,
        rust: |c| _ = black_box(c.bdd.exact_cardinality()),
        ours: Some(|c, lent| _ = black_box(ours::exact_cardinality(&c.words, c.room(lent)))),
        compare: |c, lent| {
            let ours = ours::exact_cardinality(&c.words, c.room(lent));
            assert_eq!(BigUint::from_slice(&ours.count), c.bdd.exact_cardinality());
        },
    },
    Operation {
        name: "exact_clause_cardinality",
        targets: false,
        beside: false,
        rust: |c| _ = black_box(c.bdd.exact_clause_cardinality()),
        ours: Some(|c, lent| _ = black_box(ours::exact_clause_cardinality(&c.words, c.room(lent)))),
        compare: |c, lent| {
            let ours = ours::exact_clause_cardinality(&c.words, c.room(lent));
            assert_eq!(BigUint::from_slice(&ours.count), c.bdd.exact_clause_cardinality());
        },
    },
    Operation {
        name: "cardinality",
        targets: false,
        beside: false,
        rust: |c| _ = black_box(c.bdd.cardinality()),
        ours: Some(|c, lent| _ = black_box(ours::cardinality(&c.words, c.room(lent)))),
        compare: |c, lent| {
            let ours = ours::cardinality(&c.words, c.room(lent));
            assert_eq!(ours.count.to_bits(), c.bdd.cardinality().to_bits());
        },
    },
    Operation {
        name: "node_valuation_weights",
        targets: false,
        beside: false,
        rust: |c| _ = black_box(c.bdd.node_valuation_weights()),
        ours: Some(|c, lent| {
            let (room, output) = c.lent(lent, COUNT_WORDS);
            _ = black_box(ours::node_valuation_weights(&c.words, room, output));
        }),
        compare: |c, lent| {
            let (room, output) = c.lent(lent, COUNT_WORDS);
            assert_eq!(ours::node_valuation_weights(&c.words, room, output).number, 0);
            let ours: Vec<BigUint> = output.chunks(COUNT_WORDS).map(BigUint::from_slice).collect();
            assert_eq!(ours, c.bdd.node_valuation_weights());
        },
    },
    Operation {
        name: "count_and_weights",
        targets: false,
        beside: false,
        rust: |c| {
            black_box(c.bdd.exact_cardinality());
            black_box(c.bdd.node_valuation_weights());
        },
        ours: Some(|c, lent| {
            let (room, output) = c.lent(lent, COUNT_WORDS);
            _ = black_box(ours::count_and_weights(&c.words, room, output));
        }),
        compare: |c, lent| {
            let (room, output) = c.lent(lent, COUNT_WORDS);
            let counted = ours::count_and_weights(&c.words, room, output);
            assert_eq!(BigUint::from_slice(&counted.count), c.bdd.exact_cardinality());
            let ours: Vec<BigUint> = output.chunks(COUNT_WORDS).map(BigUint::from_slice).collect();
            assert_eq!(ours, c.bdd.node_valuation_weights());
        },
    },
    Operation {
        name: "reduce",
        targets: false,
        beside: false,
        rust: |c| _ = black_box(c.bdd.and(&c.bdd)),
        ours: Some(|c, lent| {
            let (room, output) = c.lent(lent, 3);
            _ = black_box(ours::reduce(&c.words, room, output));
        }),
        compare: |c, lent| {
            let (room, output) = c.lent(lent, 3);
            let made = ours::reduce(&c.words, room, output);
            assert_eq!(&output[..3 * made.nodes], c.bdd.and(&c.bdd).to_words());
        },
    },
    Operation {
        name: "underapproximate",
        targets: false,
        beside: false,
        rust: |c| _ = black_box(c.bdd.underapproximate(&c.pointers)),
        ours: Some(|c, lent| {
            let (room, output) = c.lent(lent, 3);
            _ = black_box(ours::underapproximate(&c.words, &c.list, room, output));
        }),
        compare: |c, lent| {
            let (room, output) = c.lent(lent, 3);
            let made = ours::underapproximate(&c.words, &c.list, room, output);
            assert_eq!(&output[..3 * made.nodes], c.bdd.underapproximate(&c.pointers).to_words());
        },
    },
    Operation {
        name: "overapproximate",
        targets: false,
        beside: false,
        rust: |c| _ = black_box(c.bdd.overapproximate(&c.pointers)),
        ours: Some(|c, lent| {
            let (room, output) = c.lent(lent, 3);
            _ = black_box(ours::overapproximate(&c.words, &c.list, room, output));
        }),
        compare: |c, lent| {
            let (room, output) = c.lent(lent, 3);
            let made = ours::overapproximate(&c.words, &c.list, room, output);
            assert_eq!(&output[..3 * made.nodes], c.bdd.overapproximate(&c.pointers).to_words());
        },
    },
    Operation {
        name: "underapproximate_to_size, half",
        targets: false,
        beside: false,
        rust: |c| _ = black_box(c.bdd.underapproximate_to_size(c.nodes() / 2)),
        ours: Some(|c, lent| {
            let (room, output) = c.lent(lent, 3);
            _ = black_box(ours::underapproximate_to_size(&c.words, (c.nodes() / 2) as u32, true, room, output));
        }),
        compare: |c, lent| {
            let (room, output) = c.lent(lent, 3);
            let made = ours::underapproximate_to_size(&c.words, (c.nodes() / 2) as u32, true, room, output);
            assert_eq!(&output[..3 * made.nodes], c.bdd.underapproximate_to_size(c.nodes() / 2).to_words());
        },
    },
    Operation {
        name: "overapproximate_to_size, half",
        targets: false,
        beside: false,
        rust: |c| _ = black_box(c.bdd.overapproximate_to_size(c.nodes() / 2)),
        ours: Some(|c, lent| {
            let (room, output) = c.lent(lent, 3);
            _ = black_box(ours::overapproximate_to_size(&c.words, (c.nodes() / 2) as u32, true, room, output));
        }),
        compare: |c, lent| {
            let (room, output) = c.lent(lent, 3);
            let made = ours::overapproximate_to_size(&c.words, (c.nodes() / 2) as u32, true, room, output);
            assert_eq!(&output[..3 * made.nodes], c.bdd.overapproximate_to_size(c.nodes() / 2).to_words());
        },
    },
    Operation {
        name: "underapproximate_to_cardinality, half",
        targets: true,
        beside: false,
        rust: |c| _ = black_box(c.bdd.underapproximate_to_cardinality(&c.half_count)),
        ours: Some(|c, lent| _ = black_box(under_count(c, &c.half_count, lent))),
        compare: |c, lent| compare_count(c, &c.half_count, lent),
    },
    Operation {
        name: "underapproximate_to_cardinality, 1",
        targets: true,
        beside: false,
        rust: |c| _ = black_box(c.bdd.underapproximate_to_cardinality(&BigUint::from(1u32))),
        ours: Some(|c, lent| _ = black_box(under_count(c, &BigUint::from(1u32), lent))),
        compare: |c, lent| compare_count(c, &BigUint::from(1u32), lent),
    },
    Operation {
        name: "underapproximate_to_cardinality, just under",
        targets: true,
        beside: false,
        rust: |c| _ = black_box(c.bdd.underapproximate_to_cardinality(&c.under_count)),
        ours: Some(|c, lent| _ = black_box(under_count(c, &c.under_count, lent))),
        compare: |c, lent| compare_count(c, &c.under_count, lent),
    },
    Operation {
        name: "overapproximate_to_cardinality, half",
        targets: true,
        beside: false,
        rust: |c| _ = black_box(c.bdd.overapproximate_to_cardinality(&c.half_over)),
        ours: Some(|c, lent| _ = black_box(over_count(c, &c.half_over, true, lent))),
        compare: |c, lent| {
            let made = over_count(c, &c.half_over, true, lent);
            assert_eq!(made.verdict.number, 0);
            assert_eq!(&lent.output[..3 * made.nodes], c.bdd.overapproximate_to_cardinality(&c.half_over).to_words());
        },
    },
    // Targets that the array meets as it is given: the Rust gives a copy, as ours does where as_is is set. Without it ours is reduced.
    Operation {
        name: "underapproximate_to_size, met, as_is",
        targets: false,
        beside: false,
        rust: |c| _ = black_box(c.bdd.underapproximate_to_size(c.nodes())),
        ours: Some(|c, lent| _ = black_box(under_own_size(c, true, lent))),
        compare: |c, lent| {
            let made = under_own_size(c, true, lent);
            assert_eq!(words_of(&made, lent), c.bdd.underapproximate_to_size(c.nodes()).to_words());
        },
    },
    Operation {
        name: "underapproximate_to_size, met, reduced",
        targets: false,
        beside: false,
        rust: |c| _ = black_box(c.bdd.underapproximate_to_size(c.nodes())),
        ours: Some(|c, lent| _ = black_box(under_own_size(c, false, lent))),
        compare: |c, lent| {
            let made = under_own_size(c, false, lent);
            let rust = c.bdd.underapproximate_to_size(c.nodes());
            assert_eq!(words_of(&made, lent), rust.and(&rust).to_words());
        },
    },
    Operation {
        name: "overapproximate_to_cardinality, met, as_is",
        targets: true,
        beside: false,
        rust: |c| _ = black_box(c.bdd.overapproximate_to_cardinality(&c.count)),
        ours: Some(|c, lent| _ = black_box(over_count(c, &c.count, true, lent))),
        compare: |c, lent| {
            let made = over_count(c, &c.count, true, lent);
            assert_eq!(words_of(&made, lent), c.bdd.overapproximate_to_cardinality(&c.count).to_words());
        },
    },
    Operation {
        name: "overapproximate_to_cardinality, met, reduced",
        targets: true,
        beside: false,
        rust: |c| _ = black_box(c.bdd.overapproximate_to_cardinality(&c.count)),
        ours: Some(|c, lent| _ = black_box(over_count(c, &c.count, false, lent))),
        compare: |c, lent| {
            let made = over_count(c, &c.count, false, lent);
            let rust = c.bdd.overapproximate_to_cardinality(&c.count);
            assert_eq!(words_of(&made, lent), rust.and(&rust).to_words());
        },
    },
    // The diagram beside its cut by the list. The Rust has no such operation: the three counts, each of an `and` of the stand-in.
    Operation {
        name: "compare",
        targets: false,
        beside: true,
        rust: |c| _ = black_box(rust_compare(c)),
        ours: Some(|c, lent| _ = black_box(compare(c, lent))),
        compare: |c, lent| {
            let ours = compare(c, lent);
            assert_eq!((ours.verdict.number, Some(ours.verdict.nodes)), (0, c.cut.as_ref().map(|cut| cut.2)));
            assert_eq!([ours.first, ours.second, ours.both].map(|count| BigUint::from_slice(&count)), rust_compare(c));
            assert!(lent.table.iter().all(|w| *w == 0), "the table is not zero");
        },
    },
];

/// The diagram and its cut, in a table for exactly their pairs.
fn compare(c: &Case, lent: &mut Lent) -> ours::Comparison {
    let (cut, _, pairs) = c.cut.as_ref().expect("the case has a cut");
    let table = PAIR_WORDS * pairs;
    if lent.table.len() < table {
        lent.table.resize(table, 0);
    }
    ours::compare(&c.words, cut, &mut lent.room[..ROOM_PER_NODE * c.nodes()], &mut lent.table[..table])
}

/// How many valuations hold in the first only, in the second only and in both.
fn rust_compare(c: &Case) -> [BigUint; 3] {
    let (first, (_, second, _)) = (&c.bdd, c.cut.as_ref().expect("the case has a cut"));
    [first.and(&second.not()), second.and(&first.not()), first.and(second)].map(|made| made.exact_cardinality())
}

/// A count target as words.
pub fn natural(count: &BigUint) -> ours::Natural {
    let mut words = [0; COUNT_WORDS];
    count.iter_u32_digits().zip(&mut words).for_each(|(digit, word)| *word = digit);
    ours::Natural { words }
}

fn under_count(c: &Case, count: &BigUint, lent: &mut Lent) -> ours::Approximation {
    let (room, output) = c.lent(lent, 3);
    ours::underapproximate_to_cardinality(&c.words, natural(count), true, room, output)
}

fn over_count(c: &Case, count: &BigUint, as_is: bool, lent: &mut Lent) -> ours::Approximation {
    let (room, output) = c.lent(lent, 3);
    ours::overapproximate_to_cardinality(&c.words, natural(count), as_is, room, output)
}

/// To as many nodes as there are.
fn under_own_size(c: &Case, as_is: bool, lent: &mut Lent) -> ours::Approximation {
    let (room, output) = c.lent(lent, 3);
    ours::underapproximate_to_size(&c.words, c.nodes() as u32, as_is, room, output)
}

/// The words of a met target's answer, for which there are no trials.
fn words_of<'a>(made: &ours::Approximation, lent: &'a Lent) -> &'a [u32] {
    assert_eq!((made.verdict.number, made.trials), (0, 0));
    &lent.output[..3 * made.nodes]
}

fn compare_count(c: &Case, count: &BigUint, lent: &mut Lent) {
    let made = under_count(c, count, lent);
    assert_eq!(made.verdict.number, 0);
    assert_eq!(&lent.output[..3 * made.nodes], c.bdd.underapproximate_to_cardinality(count).to_words());
}
