//! STAND-IN, as ../lib.rs says: words and bytes as diagrams, and `and` and `not` from document 01.
use crate::*;
use std::hash::{BuildHasherDefault, Hasher};
use std::sync::atomic::{AtomicUsize, Ordering::Relaxed};

mod _impl_approximation;
mod _impl_util;

/// Two for the variable and four for each link.
const BYTES_A_NODE: usize = 2 + 4 + 4;

static ANDS: AtomicUsize = AtomicUsize::new(0);

/// How often `and` was called.
pub fn ands() -> usize {
    ANDS.load(Relaxed)
}

impl Bdd {
    /// Three words for a node: variable, low link, high link.
    pub fn from_words(words: &[u32]) -> Bdd {
        let node = |w: &[u32]| BddNode::mk_node(BddVariable(w[0] as u16), BddPointer(w[1]), BddPointer(w[2]));
        Bdd(words.chunks(3).map(node).collect())
    }

    pub fn to_words(&self) -> Vec<u32> {
        let words = |n: &BddNode| [n.var.0 as u32, n.low_link.0, n.high_link.0];
        self.0.iter().flat_map(words).collect()
    }

    /// The form that the crate documents for its file of bytes; its own code is not at hand. Node after node, variable, low link and
    /// high link, each least byte first.
    pub fn write_as_bytes(&self, output: &mut Vec<u8>) {
        for node in &self.0 {
            output.extend(node.var.0.to_le_bytes());
            output.extend(node.low_link.0.to_le_bytes());
            output.extend(node.high_link.0.to_le_bytes());
        }
    }

    /// The nodes of such bytes; what is left over is no node.
    pub fn read_as_bytes(input: &[u8]) -> Bdd {
        let two = |b: &[u8]| u16::from_le_bytes(b.try_into().unwrap());
        let four = |b: &[u8]| u32::from_le_bytes(b.try_into().unwrap());
        let node = |b: &[u8]| BddNode::mk_node(BddVariable(two(&b[..2])), BddPointer(four(&b[2..6])), BddPointer(four(&b[6..])));
        Bdd(input.chunks_exact(BYTES_A_NODE).map(node).collect())
    }

    /// Constants exchange; else links 0 and 1 exchange and every node keeps its place.
    pub fn not(&self) -> Bdd {
        if self.is_false() {
            return Bdd::mk_true(self.num_vars());
        }
        if self.is_true() {
            return Bdd::mk_false(self.num_vars());
        }
        let swap = |p: BddPointer| if p.is_terminal() { BddPointer(1 - p.0) } else { p };
        let mut result = self.clone();
        for node in result.0.iter_mut().skip(2) {
            node.low_link = swap(node.low_link);
            node.high_link = swap(node.high_link);
        }
        result
    }

    /// A plain apply with two hash maps. The result is reduced, numbered on the way back, low branch first, root last.
    pub fn and(&self, other: &Bdd) -> Bdd {
        ANDS.fetch_add(1, Relaxed);
        let mut apply = Apply {
            left: self,
            right: other,
            done: HashMap::default(),
            unique: HashMap::default(),
            result: Bdd::mk_true(self.num_vars()),
        };
        let root = apply.pair(self.root_pointer(), other.root_pointer());
        if root.is_zero() {
            Bdd::mk_false(self.num_vars())
        } else {
            apply.result
        }
    }

    pub(crate) fn iff(&self, _other: &Bdd) -> Bdd {
        unimplemented!("a stand-in: only `substitute` asks for it")
    }

    pub(crate) fn binary_op_with_exists(
        _left: &Bdd,
        _right: &Bdd,
        _op: fn(Option<bool>, Option<bool>) -> Option<bool>,
        _variables: &[BddVariable],
    ) -> Bdd {
        unimplemented!("a stand-in: only `substitute` asks for it")
    }
}

/// A hash by multiplication: the maps' default one would be several times slower.
#[derive(Default)]
struct Quick(u64);

impl Hasher for Quick {
    fn finish(&self) -> u64 {
        self.0
    }
    fn write(&mut self, bytes: &[u8]) {
        for b in bytes {
            self.write_u32(*b as u32);
        }
    }
    fn write_u16(&mut self, x: u16) {
        self.write_u32(x as u32);
    }
    fn write_u32(&mut self, x: u32) {
        self.0 = (self.0.rotate_left(5) ^ x as u64).wrapping_mul(0x517c_c1b7_2722_0a95);
    }
}

type Map<K, V> = HashMap<K, V, BuildHasherDefault<Quick>>;

struct Apply<'a> {
    left: &'a Bdd,
    right: &'a Bdd,
    done: Map<(BddPointer, BddPointer), BddPointer>,
    unique: Map<BddNode, BddPointer>,
    result: Bdd,
}

impl Apply<'_> {
    fn pair(&mut self, l: BddPointer, r: BddPointer) -> BddPointer {
        if l.is_zero() || r.is_zero() {
            return BddPointer::zero();
        }
        if l.is_one() && r.is_one() {
            return BddPointer::one();
        }
        if let Some(known) = self.done.get(&(l, r)) {
            return *known;
        }
        let (left, right) = (self.left, self.right);
        let var = left.var_of(l).min(right.var_of(r));
        let links = |bdd: &Bdd, p: BddPointer| match bdd.var_of(p) == var {
            true => (bdd.low_link_of(p), bdd.high_link_of(p)),
            false => (p, p),
        };
        let (l_low, l_high) = links(left, l);
        let (r_low, r_high) = links(right, r);
        let low = self.pair(l_low, r_low);
        let high = self.pair(l_high, r_high);
        let found = if low == high { low } else { self.node(BddNode::mk_node(var, low, high)) };
        self.done.insert((l, r), found);
        found
    }

    fn node(&mut self, node: BddNode) -> BddPointer {
        let next = BddPointer::from_index(self.result.size());
        let found = *self.unique.entry(node).or_insert(next);
        if found == next {
            self.result.push_node(node);
        }
        found
    }
}
