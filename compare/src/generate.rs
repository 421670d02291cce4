//! Accepted diagrams of many families, and damaged ones.
use crate::limits::MOST_VARS;
use crate::random::Random;
use crate::reading;

#[path = "../../bench/src/generate.rs"]
#[allow(dead_code)]
mod bench;

pub const FAMILIES: [(&str, fn(&mut Random, usize) -> Vec<u32>); 12] = [
    ("constant", constant),
    ("random links", random_links),
    ("unreduced", unreduced),
    ("truth table", truth_table),
    ("clause or valuation", clause),
    ("threshold", threshold),
    ("remainder", remainder),
    ("random layers", layers),
    ("sum of products", products),
    ("constant in a longer array", hidden_constant),
    ("stretched", stretched),
    ("benchmark's", benchmark),
];

/// A diagram of at most `most` nodes (3 or more), with the family's number.
pub fn diagram(random: &mut Random, most: usize) -> (usize, Vec<u32>) {
    let family = random.below(FAMILIES.len());
    let words = FAMILIES[family].1(random, most);
    let words = if random.one_in(3) { permuted(random, &words) } else { words };
    (family, words)
}

/// Few variables for few nodes, mostly.
fn var_count(random: &mut Random, least: usize, most: usize) -> usize {
    let few = if most < 40 { 5 } else { 1 };
    let v = match random.below(few + 5) {
        0..=1 => random.from_to(9, 40),
        2..=3 => random.from_to(20, MOST_VARS - 1),
        4 => MOST_VARS,
        _ => random.from_to(0, 8),
    };
    v.max(least).min(MOST_VARS)
}

fn constant(random: &mut Random, most: usize) -> Vec<u32> {
    let v = var_count(random, 0, most) as u32;
    if random.one_in(2) { vec![v, 0, 0] } else { vec![v, 0, 0, v, 1, 1] }
}

/// Nodes from the root down, with links by their places in this list; 0 and 1 are the terminals, node i is 2 + i.
struct Down {
    v: usize,
    nodes: Vec<[usize; 3]>,
}

impl Down {
    /// Children first, root last.
    fn words(&self) -> Vec<u32> {
        let n = self.nodes.len() + 2;
        let place = |p: usize| if p < 2 { p } else { n + 1 - p };
        let v = self.v as u32;
        let mut words = vec![v, 0, 0, v, 1, 1];
        for [var, low, high] in self.nodes.iter().rev() {
            words.extend([*var as u32, place(*low) as u32, place(*high) as u32]);
        }
        words
    }
}

const FREE: usize = usize::MAX;

/// Each node but the root hangs at a free link of an earlier level; `fill` says what the links left over are.
fn hung(random: &mut Random, most: usize, mut fill: impl FnMut(&mut Random, usize, usize, Option<usize>) -> usize) -> Vec<u32> {
    let v = var_count(random, 1, most);
    let first = if random.one_in(3) { v } else { v.min(2) };
    let mut nodes = vec![[random.below(first), FREE, FREE]];
    let mut free = vec![];
    let mut waiting = vec![(0, 1), (0, 2)];
    let mut starts = vec![(nodes[0][0], 0)];
    for var in nodes[0][0] + 1..v {
        free.append(&mut waiting);
        let start = nodes.len();
        let left = v - var;
        let share = (most - 2 - nodes.len()) / left;
        let width = if random.one_in(6) { 0 } else { random.from_to(0, 2 * share + 1) };
        for _ in 0..width.min(free.len()).min(most - 2 - nodes.len()) {
            let (parent, side) = free.swap_remove(random.below(free.len()));
            nodes[parent][side] = 2 + nodes.len();
            waiting.extend([(nodes.len(), 1), (nodes.len(), 2)]);
            nodes.push([var, FREE, FREE]);
        }
        if nodes.len() > start {
            starts.push((var, start));
        }
    }
    let count = nodes.len();
    for i in 0..count {
        let deeper = starts.iter().find(|s| s.0 > nodes[i][0]).map_or(count, |s| s.1);
        for side in 1..3 {
            if nodes[i][side] == FREE {
                let other = nodes[i][3 - side];
                nodes[i][side] = fill(random, deeper, count, (other != FREE).then_some(other));
            }
        }
    }
    Down { v, nodes }.words()
}

fn random_links(random: &mut Random, most: usize) -> Vec<u32> {
    let to_terminal = random.pick(&[2, 4, 16]);
    hung(random, most, |random, deeper, count, _| {
        if deeper == count || random.one_in(to_terminal) { random.below(2) } else { 2 + random.from_to(deeper, count - 1) }
    })
}

/// Many nodes with low = high, and many equal ones.
fn unreduced(random: &mut Random, most: usize) -> Vec<u32> {
    hung(random, most, |random, deeper, count, other| match other {
        Some(other) if random.one_in(2) => other,
        _ if deeper == count || random.one_in(3) => random.below(2),
        _ => 2 + count - 1 - random.below((count - deeper).min(3)),
    })
}

/// A function of few variables, each valuation drawn, reduced, its variables spread over more.
fn truth_table(random: &mut Random, most: usize) -> Vec<u32> {
    let mut k = random.from_to(0, 6);
    while k < 11 && 1 << (k + 1) < most && random.below(6) > 0 {
        k += 1;
    }
    while k > 1 && 1 << k > 2 * most {
        k -= 1;
    }
    let density = random.pick(&[2, 2, 3, 8]);
    let mut level: Vec<usize> = (0..1 << k).map(|_| random.one_in(density) as usize).collect();
    let v = var_count(random, k, most);
    let mut vars: Vec<u32> = (0..v as u32).collect();
    while vars.len() > k {
        vars.remove(random.below(vars.len()));
    }
    let v = v as u32;
    let mut words = vec![v, 0, 0, v, 1, 1];
    for var in vars.iter().rev() {
        level = level.chunks(2).map(|pair| {
            if pair[0] == pair[1] && random.below(50) > 0 {
                return pair[0];
            }
            words.extend([*var, pair[0] as u32, pair[1] as u32]);
            words.len() / 3 - 1
        }).collect();
    }
    match level[0] {
        0 => vec![v, 0, 0],
        1 => words[..6].to_vec(),
        _ => short(words, most),
    }
}

/// Reduced where it would be too long; true where it is still too long.
fn short(words: Vec<u32>, most: usize) -> Vec<u32> {
    if words.len() <= 3 * most {
        return words;
    }
    let reduced = reading::reduce(&words);
    if reduced.len() <= 3 * most { reduced } else { words[..6].to_vec() }
}

fn clause(random: &mut Random, most: usize) -> Vec<u32> {
    let v = var_count(random, 0, most);
    let whole = random.one_in(2);
    let mut nodes = vec![];
    for var in 0..v {
        if whole || random.one_in(2) {
            nodes.push([var, 0, 0]);
        }
    }
    nodes.truncate(most - 2);
    let count = nodes.len();
    for (i, node) in nodes.iter_mut().enumerate() {
        let next = if i + 1 < count { 3 + i } else { 1 };
        // rarely a link that spoils the clause
        let other = if random.one_in(200) { random.below(2) } else { 0 };
        let side = random.from_to(1, 2);
        node[side] = next;
        node[3 - side] = other;
    }
    Down { v, nodes }.words()
}

/// An automaton that reads the variables in turn: nodes are the pairs of level and state that can be met.
fn automaton(v: usize, levels: &[usize], most: usize, mut step: impl FnMut(usize, usize, usize) -> usize, accepts: impl Fn(usize) -> bool) -> Vec<u32> {
    let mut nodes: Vec<[usize; 3]> = vec![];
    let mut states = vec![0];
    for (i, var) in levels.iter().enumerate() {
        let start = nodes.len();
        if start + states.len() > most - 2 {
            return vec![v as u32, 0, 0, v as u32, 1, 1];
        }
        let mut next: Vec<usize> = vec![];
        for state in &states {
            let mut node = [*var, 0, 0];
            for bit in 0..2 {
                let to = step(i, *state, bit);
                let at = next.iter().position(|s| *s == to).unwrap_or_else(|| {
                    next.push(to);
                    next.len() - 1
                });
                node[1 + bit] = 2 + start + states.len() + at;
            }
            nodes.push(node);
        }
        states = next;
    }
    let count = nodes.len();
    for node in nodes.iter_mut() {
        for link in &mut node[1..] {
            if *link >= 2 + count {
                *link = accepts(states[*link - 2 - count]) as usize;
            }
        }
    }
    Down { v, nodes }.words()
}

fn some_levels(random: &mut Random, most: usize) -> (usize, Vec<usize>) {
    let v = var_count(random, 1, most);
    let keep = random.pick(&[1, 1, 2, 5]);
    let mut levels: Vec<usize> = (0..v).filter(|_| random.one_in(keep)).collect();
    if levels.is_empty() {
        levels.push(0);
    }
    levels.truncate(most - 2);
    (v, levels)
}

fn threshold(random: &mut Random, most: usize) -> Vec<u32> {
    let (v, levels) = some_levels(random, most);
    let cap = random.from_to(1, 1 + (most / levels.len()).min(120));
    let exactly = random.one_in(2);
    let words = automaton(v, &levels, most, |_, s, bit| (s + bit).min(cap), |s| if exactly { s == cap - 1 } else { s >= cap });
    if random.one_in(2) { reading::reduce(&words) } else { words }
}

fn remainder(random: &mut Random, most: usize) -> Vec<u32> {
    let (v, levels) = some_levels(random, most);
    let m = random.from_to(1, 1 + (most / levels.len()).min(40));
    let wanted = random.below(m);
    let words = automaton(v, &levels, most, |_, s, bit| (2 * s + bit) % m, |s| s == wanted);
    if random.one_in(2) { reading::reduce(&words) } else { words }
}

fn layers(random: &mut Random, most: usize) -> Vec<u32> {
    let (v, levels) = some_levels(random, most);
    let width = random.from_to(1, 1 + (most / levels.len()).min(400));
    let table: Vec<usize> = (0..2 * width * levels.len()).map(|_| random.below(width)).collect();
    automaton(v, &levels, most, |i, s, bit| table[(i * width + s) * 2 + bit], |s| s % 2 == 1)
}

/// x_i and x_(i + k), or'ed over i below k: about 2^k nodes in this order.
fn products(random: &mut Random, most: usize) -> Vec<u32> {
    let mut k = 1;
    while k < 11 && (1 << (k + 2)) <= most {
        k += 1;
    }
    let k = random.from_to(1, k);
    let v = var_count(random, 2 * k, most);
    let levels: Vec<usize> = (0..2 * k).collect();
    // the state is the first k bits, then how many are read, or all ones once a product holds
    let done = usize::MAX;
    automaton(v, &levels, most, |i, s, bit| {
        if s == done {
            done
        } else if i < k {
            s | bit << i
        } else if bit == 1 && s >> (i - k) & 1 == 1 {
            done
        } else {
            s & !(1 << (i - k))
        }
    }, |s| s == done)
}

fn hidden_constant(random: &mut Random, most: usize) -> Vec<u32> {
    let mut words = unreduced(random, most);
    let to = random.below(2) as u32;
    let mixed = random.one_in(4);
    for node in words.chunks_mut(3).skip(2) {
        for link in &mut node[1..] {
            if *link < 2 {
                *link = if mixed && random.one_in(20) { 1 - to } else { to };
            }
        }
    }
    words
}

/// A diagram of half the size with nodes doubled and nodes with low = high set into its links.
fn stretched(random: &mut Random, most: usize) -> Vec<u32> {
    let words = match random.below(3) {
        0 => truth_table(random, (most / 2).max(3)),
        1 => products(random, (most / 2).max(3)),
        _ => random_links(random, (most / 2).max(3)),
    };
    if words.len() < 9 {
        return words;
    }
    let mut nodes: Vec<[u32; 3]> = words.chunks(3).map(|c| [c[0], c[1], c[2]]).collect();
    let more = random.below(most - nodes.len() + 1);
    for _ in 0..more {
        let at = random.from_to(2, nodes.len() - 1);
        let side = random.from_to(1, 2);
        let child = nodes[at][side];
        let (above, below) = (nodes[at][0], nodes[child as usize][0]);
        let new = if child >= 2 && random.one_in(2) {
            nodes[child as usize]
        } else if above + 1 < below {
            [random.from_to(above as usize + 1, below as usize - 1) as u32, child, child]
        } else {
            continue;
        };
        // the root stays last
        let last = nodes.len() as u32 - 1;
        nodes.insert(last as usize, new);
        let root = nodes.len() - 1;
        let parent = if at == last as usize { root } else { at };
        nodes[parent][side] = last;
    }
    // a doubled node may have lost its last parent
    reachable_only(&nodes.concat())
}

fn reachable_only(words: &[u32]) -> Vec<u32> {
    reading::renumber(words)
}

fn benchmark(random: &mut Random, most: usize) -> Vec<u32> {
    let n = most.max(8) - random.below(1 + (most.max(8) - 8).min(5));
    bench::diagram(bench::FAMILIES[random.below(bench::FAMILIES.len())].0, n, random.next())
}

/// The same diagram, its non-terminals in another order, the root still last.
pub fn permuted(random: &mut Random, words: &[u32]) -> Vec<u32> {
    let n = words.len() / 3;
    if n < 4 {
        return words.to_vec();
    }
    let mut places: Vec<usize> = (0..n).collect();
    for i in 3..n - 1 {
        places.swap(i, 2 + random.below(i - 1));
    }
    let mut result = vec![0; words.len()];
    for p in 0..n {
        let at = 3 * places[p];
        result[at] = words[3 * p];
        result[at + 1] = places[words[3 * p + 1] as usize] as u32;
        result[at + 2] = places[words[3 * p + 2] as usize] as u32;
    }
    result
}

/// Something done to a diagram that may, or may not, spoil it.
pub fn damaged(random: &mut Random, mut words: Vec<u32>) -> Vec<u32> {
    let times = if random.one_in(4) { random.from_to(2, 4) } else { 1 };
    for _ in 0..times {
        words = damaged_once(random, words);
    }
    words
}

fn damaged_once(random: &mut Random, mut words: Vec<u32>) -> Vec<u32> {
    let n = words.len() / 3;
    if words.is_empty() {
        return words;
    }
    let at = random.below(words.len());
    match random.below(16) {
        0 => words.truncate(at),
        1 => words.truncate(3 * (at / 3)),
        2 => words.push(random.word()),
        3 => words.extend([random.below(n + 1) as u32, random.below(n + 2) as u32, random.below(n + 2) as u32]),
        4 => words[at] = random.word(),
        5 => words[at] = random.pick(&[0, 1, 2, MOST_VARS as u32, MOST_VARS as u32 + 1, 65535, 65536, u32::MAX, 1 << 31]),
        6 => words[at] = (n + random.below(3)).saturating_sub(1) as u32,
        7 => words[at] = random.below(n + 1) as u32,
        8 => words[at] = words[at].wrapping_add(random.pick(&[1, u32::MAX])),
        // the variable count, at one terminal or at both
        9 => {
            let v = random.pick(&[0, 1, words[0].wrapping_sub(1), words[0].wrapping_add(1), MOST_VARS as u32, MOST_VARS as u32 + 1, words[0].wrapping_add(65536)]);
            words[0] = v;
            if n > 1 && random.below(4) > 0 {
                words[3] = v;
            }
        }
        // a variable above or at its child's or parent's
        10 | 11 if n > 2 => {
            let p = random.from_to(2, n - 1);
            let q = random.from_to(2, n - 1);
            words[3 * p] = words[3 * q];
        }
        // a link back or to itself
        12 | 13 if n > 2 => {
            let p = random.from_to(2, n - 1);
            let q = if random.one_in(3) { p } else { random.from_to(2, n - 1) };
            words[3 * p + random.from_to(1, 2)] = q as u32;
        }
        // two nodes change places, the links don't follow
        14 if n > 3 => {
            let (p, q) = (random.from_to(2, n - 1), random.from_to(2, n - 1));
            for i in 0..3 {
                words.swap(3 * p + i, 3 * q + i);
            }
        }
        15 if n > 1 => words.swap(at, random.below(n)),
        _ => words[at] ^= 1 << random.below(32),
    }
    words
}
