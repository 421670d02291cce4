//! The rules in force (docs/RULES.md) read on their own: the table of refusals, negation, reduction, cuts and the searches with their trials. It shares
//! no code with the library or with the Rust text, from which it takes counts and weights as arguments only.
use crate::limits::{COUNT_WORDS, MOST_NODES, MOST_VARS, ROOM_PER_NODE};
use num_bigint::BigUint;
use std::collections::{BTreeMap, BTreeSet};

#[derive(Clone, Copy, Debug, Eq, PartialEq)]
pub enum Output {
    Nothing,
    Diagram,
    Weights,
    Variables,
}

/// (number, place)
pub type Refused = (u32, usize);

/// Rows 1 to 12 and 17 of the table. What is accepted comes with its n and v.
pub fn check(words: &[u32], room: usize, output: Output, output_len: usize) -> Result<(usize, usize), Refused> {
    if words.is_empty() {
        return Err((1, 0));
    }
    if words.len() % 3 != 0 {
        return Err((2, 0));
    }
    let n = words.len() / 3;
    if n > MOST_NODES {
        return Err((3, 0));
    }
    if output_len < output_asked(output, n) {
        return Err((4, 0));
    }
    if room < ROOM_PER_NODE * n.max(2) {
        return Err((5, 0));
    }
    let node = |p: usize| (words[3 * p] as u64, words[3 * p + 1] as usize, words[3 * p + 2] as usize);
    let v = node(0).0;
    if node(0) != (v, 0, 0) {
        return Err((6, 0));
    }
    if n >= 2 && node(1) != (v, 1, 1) {
        return Err((6, 1));
    }
    if v > MOST_VARS as u64 {
        return Err((7, 0));
    }
    for p in 2..n {
        let (var, low, high) = node(p);
        if var >= v {
            return Err((8, p));
        }
        if low >= n {
            return Err((9, p));
        }
        if high >= n {
            return Err((10, p));
        }
    }
    // reachable: the least set with the root that is closed under links of non-terminals
    let mut reachable = BTreeSet::from([n - 1]);
    let mut todo = vec![n - 1];
    while let Some(p) = todo.pop() {
        if p >= 2 {
            for child in [node(p).1, node(p).2] {
                if reachable.insert(child) {
                    todo.push(child);
                }
            }
        }
    }
    // the node first, the smallest; then which of its links
    let wrong = |p: usize, child: usize| node(child).0 <= node(p).0;
    if let Some(&p) = reachable.iter().find(|p| **p >= 2 && (wrong(**p, node(**p).1) || wrong(**p, node(**p).2))) {
        return Err((if wrong(p, node(p).1) { 11 } else { 17 }, p));
    }
    match (2..n).find(|p| !reachable.contains(p)) {
        Some(p) => Err((12, p)),
        None => Ok((n, v as usize)),
    }
}

pub fn output_asked(output: Output, n: usize) -> usize {
    match output {
        Output::Nothing => 0,
        Output::Diagram => 3 * n.max(2),
        Output::Weights => COUNT_WORDS * n,
        Output::Variables => MOST_VARS,
    }
}

/// Rows 13 and 14.
pub fn check_list(n: usize, list: &[u32]) -> Result<(), Refused> {
    if let Some(at) = list.iter().position(|p| *p as usize >= n) {
        return Err((13, at));
    }
    match list.iter().position(|p| *p < 2) {
        Some(at) => Err((14, at)),
        None => Ok(()),
    }
}

/// Row 18, by the count: no answer has no nodes, and one node is false, which is above nothing that holds somewhere.
pub fn check_size(over: bool, target: u32, count: &BigUint) -> Result<(), Refused> {
    let least = if over && *count > BigUint::default() { 2 } else { 1 };
    if target < least { Err((18, 0)) } else { Ok(()) }
}

/// Rows 16 and 19.
pub fn check_count(n: usize, v: usize, over: bool, target: &BigUint) -> Result<(), Refused> {
    let all = BigUint::from(1u32) << v;
    if over && *target > all {
        return Err((16, 0));
    }
    let constant = if over { 1 } else { 2 };
    if n == constant && *target > BigUint::default() && *target < all {
        return Err((19, 0));
    }
    Ok(())
}

pub fn constant(v: u32, yes: bool) -> Vec<u32> {
    if yes { vec![v, 0, 0, v, 1, 1] } else { vec![v, 0, 0] }
}

pub fn not(words: &[u32]) -> Vec<u32> {
    let v = words[0];
    match words.len() / 3 {
        1 => constant(v, true),
        2 => constant(v, false),
        _ => {
            let mut result = words.to_vec();
            for node in result.chunks_mut(3).skip(2) {
                for link in &mut node[1..] {
                    *link = match *link {
                        0 => 1,
                        1 => 0,
                        other => other,
                    };
                }
            }
            result
        }
    }
}

/// Bryant's reduction, numbered on the way back, low branch first. Unreachable nodes are never met.
pub fn reduce(words: &[u32]) -> Vec<u32> {
    struct Walk<'a> {
        words: &'a [u32],
        became: BTreeMap<u32, u32>,
        known: BTreeMap<(u32, u32, u32), u32>,
        result: Vec<u32>,
    }
    impl Walk<'_> {
        fn go(&mut self, p: u32) -> u32 {
            if p < 2 {
                return p;
            }
            if let Some(q) = self.became.get(&p) {
                return *q;
            }
            let [var, low, high] = [0, 1, 2].map(|i| self.words[3 * p as usize + i]);
            let (low, high) = (self.go(low), self.go(high));
            let q = if low == high {
                low
            } else if let Some(q) = self.known.get(&(var, low, high)) {
                *q
            } else {
                let q = self.result.len() as u32 / 3;
                self.result.extend([var, low, high]);
                self.known.insert((var, low, high), q);
                q
            };
            self.became.insert(p, q);
            q
        }
    }
    let v = words[0];
    let mut walk = Walk { words, became: BTreeMap::new(), known: BTreeMap::new(), result: constant(v, true) };
    let root = walk.go(words.len() as u32 / 3 - 1);
    if root == 0 { constant(v, false) } else { walk.result }
}

/// The same nodes, numbered on the way back, low branch first. Nothing is joined or left out but what can't be reached.
pub fn renumber(words: &[u32]) -> Vec<u32> {
    fn go(words: &[u32], p: u32, number: &mut BTreeMap<u32, u32>, result: &mut Vec<u32>) -> u32 {
        if p < 2 {
            return p;
        }
        if let Some(q) = number.get(&p) {
            return *q;
        }
        let low = go(words, words[3 * p as usize + 1], number, result);
        let high = go(words, words[3 * p as usize + 2], number, result);
        let q = result.len() as u32 / 3;
        result.extend([words[3 * p as usize], low, high]);
        number.insert(p, q);
        q
    }
    let n = words.len() / 3;
    if n <= 2 {
        return words.to_vec();
    }
    let mut result = words[..6].to_vec();
    go(words, n as u32 - 1, &mut BTreeMap::new(), &mut result);
    result
}

/// A cut by a list that is accepted.
pub fn cut(words: &[u32], list: &[u32], to: u32) -> Vec<u32> {
    let n = words.len() / 3;
    if list.contains(&(n as u32 - 1)) {
        return constant(words[0], to == 1);
    }
    let listed: BTreeSet<u32> = list.iter().copied().collect();
    let mut sent = words.to_vec();
    for node in sent.chunks_mut(3).skip(2) {
        for link in &mut node[1..] {
            if listed.contains(link) {
                *link = to;
            }
        }
    }
    reduce(&sent)
}

/// The non-terminals: smallest weight first; equal weights, biggest pointer first.
fn priorities(weights: &[BigUint]) -> Vec<u32> {
    let mut order: Vec<u32> = (2..weights.len() as u32).collect();
    order.sort_by_key(|p| (&weights[*p as usize], std::cmp::Reverse(*p)));
    order
}

/// Whether the array meets a size as it is given, whatever reducing would leave of it.
pub fn size_is_met(n: usize, t: usize) -> bool {
    n <= t
}

/// Whether the array meets a count as it is given. Under to 0 always gives the one-node false.
pub fn count_is_met(over: bool, k: &BigUint, count: &BigUint) -> bool {
    if over { count >= k } else { *k > BigUint::default() && count <= k }
}

/// What comes out where the array meets the target: nothing is cut.
fn met(words: &[u32], as_is: bool) -> (Vec<u32>, usize) {
    (if as_is { words.to_vec() } else { reduce(words) }, 0)
}

/// The answer's words and its trials.
pub fn under_to_size(words: &[u32], t: usize, as_is: bool, weights: &dyn Fn(&[u32]) -> Vec<BigUint>) -> (Vec<u32>, usize) {
    let n = words.len() / 3;
    if t <= 1 || t == 2 {
        return (constant(words[0], t == 2 && n == 2), 0);
    }
    if size_is_met(n, t) {
        return met(words, as_is);
    }
    let order = priorities(&weights(words));
    let (mut start, mut stop, mut trials) = (0, n - t, 0);
    while start < stop {
        let middle = (start + stop) / 2;
        let found = cut(words, &order[..middle], 0);
        trials += 1;
        let size = found.len() / 3;
        if size == t {
            return (found, trials);
        } else if size < t {
            stop = middle;
        } else {
            start = middle + 1;
        }
    }
    (cut(words, &order[..stop], 0), trials + 1)
}

pub fn over_to_size(words: &[u32], t: usize, as_is: bool, weights: &dyn Fn(&[u32]) -> Vec<BigUint>) -> (Vec<u32>, usize) {
    if size_is_met(words.len() / 3, t) {
        return met(words, as_is);
    }
    let (found, trials) = under_to_size(&not(words), t, as_is, weights);
    (not(&found), trials)
}

pub fn under_to_count(
    words: &[u32],
    k: &BigUint,
    as_is: bool,
    count: &dyn Fn(&[u32]) -> BigUint,
    weights: &dyn Fn(&[u32]) -> Vec<BigUint>,
) -> (Vec<u32>, usize) {
    if *k == BigUint::default() {
        return (constant(words[0], false), 0);
    }
    let all = count(words);
    if count_is_met(false, k, &all) {
        return met(words, as_is);
    }
    let table = weights(words);
    let order = priorities(&table);
    let (mut taken, mut trials, mut rest) = (0, 0, all - k);
    loop {
        // until their weights cover the rest, ending with the node whose weight reaches it
        let mut covered = BigUint::default();
        while covered < rest && taken < order.len() {
            covered += &table[order[taken] as usize];
            taken += 1;
        }
        let found = cut(words, &order[..taken], 0);
        trials += 1;
        let now = count(&found);
        if now <= *k {
            return (found, trials);
        }
        rest = now - k;
    }
}

pub fn over_to_count(
    words: &[u32],
    k: &BigUint,
    as_is: bool,
    count: &dyn Fn(&[u32]) -> BigUint,
    weights: &dyn Fn(&[u32]) -> Vec<BigUint>,
) -> (Vec<u32>, usize) {
    let own = count(words);
    if count_is_met(true, k, &own) {
        return met(words, as_is);
    }
    let negation = not(words);
    let target = count(&negation) - (k - own);
    let (found, trials) = under_to_count(&negation, &target, as_is, count, weights);
    (not(&found), trials)
}
