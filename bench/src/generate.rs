//! Accepted diagrams of a given size, from a seed.
use crate::limits::MOST_VARS;

/// Numbers from a seed (splitmix64).
pub struct Random(pub u64);

impl Random {
    pub fn next(&mut self) -> u64 {
        self.0 = self.0.wrapping_add(0x9e37_79b9_7f4a_7c15);
        let mut z = self.0;
        z = (z ^ (z >> 30)).wrapping_mul(0xbf58_476d_1ce4_e5b9);
        z = (z ^ (z >> 27)).wrapping_mul(0x94d0_49bb_1331_11eb);
        z ^ (z >> 31)
    }
    pub fn below(&mut self, n: usize) -> usize {
        (self.next() % n as u64) as usize
    }
}

#[derive(Clone, Copy, PartialEq)]
pub enum Family {
    /// Links to any deeper node, in any order of the array.
    Random,
    /// The same links, each child before its parents in the array.
    ChildrenFirst,
    /// The same links, each child after its parents, the root apart.
    ChildrenLast,
    /// As many levels as there are variables, each node linked to the next level.
    Chain(usize),
    /// A quarter of the nodes at each of the lowest levels.
    Wide,
    /// Equal nodes, and nodes with low = high.
    Unreduced,
    /// A tree over conjunctions, one a column; as many levels.
    Columns(usize),
}

/// The most variables that there could be at first: times at so many can be held to older ones.
const FIRST_VARS: usize = 255;

pub const FAMILIES: [(Family, &str); 9] = [
    (Family::Random, "random"),
    (Family::ChildrenFirst, "children first"),
    (Family::ChildrenLast, "children last"),
    (Family::Chain(FIRST_VARS), "chain"),
    (Family::Wide, "wide layers"),
    (Family::Unreduced, "unreduced"),
    (Family::Columns(FIRST_VARS), "columns"),
    (Family::Chain(MOST_VARS), "chain"),
    (Family::Columns(MOST_VARS), "columns"),
];

#[derive(Clone, Copy, PartialEq)]
enum Link {
    Free,
    Terminal(u32),
    To(usize),
}

/// The nodes by level, root first: their levels and links, and where each level starts.
struct Graph {
    levels: Vec<usize>,
    links: Vec<[Link; 2]>,
    starts: Vec<usize>,
}

/// Levels that double from the root to the least width that takes all nodes, the last one cut short.
fn levels(count: usize, most: usize) -> Graph {
    let total = |cap: usize| (0..most).map(|i| cap.min(1 << i.min(20))).sum::<usize>();
    let cap = (1..=count).find(|c| total(*c) >= count).expect("too few levels");
    let mut graph = Graph { levels: vec![], links: vec![], starts: vec![] };
    for i in 0..most {
        let width = cap.min(1 << i.min(20)).min(count - graph.levels.len());
        if width == 0 {
            break;
        }
        graph.starts.push(graph.levels.len());
        graph.levels.extend(std::iter::repeat(i).take(width));
    }
    graph.starts.push(count);
    graph.links = vec![[Link::Free; 2]; count];
    graph
}

impl Graph {
    fn width(&self, level: usize) -> usize {
        self.starts[level + 1] - self.starts[level]
    }

    /// Gives each node but the root a free link of an earlier level.
    fn span(&mut self, random: &mut Random) {
        let mut free: Vec<(usize, usize)> = vec![];
        for level in 0..self.starts.len() - 1 {
            let (from, to) = (self.starts[level], self.starts[level + 1]);
            for node in from.max(1)..to {
                let (parent, side) = free.swap_remove(random.below(free.len()));
                self.links[parent][side] = Link::To(node);
            }
            free.extend((from..to).flat_map(|node| [(node, 0), (node, 1)]));
        }
    }

    fn fill_random(&mut self, random: &mut Random) {
        for node in 0..self.levels.len() {
            let below = self.starts[self.levels[node] + 1];
            for side in 0..2 {
                if self.links[node][side] == Link::Free {
                    let to_terminal = random.below(4) == 0 || below == self.levels.len();
                    self.links[node][side] = match to_terminal {
                        true => Link::Terminal(random.below(2) as u32),
                        false => Link::To(below + random.below(self.levels.len() - below)),
                    };
                }
            }
        }
    }

    /// A free link beside a taken one becomes equal to it or a terminal; two free ones are 0 and 1.
    fn fill_unreduced(&mut self, random: &mut Random) {
        for pair in self.links.iter_mut() {
            *pair = match *pair {
                [Link::Free, Link::Free] => [Link::Terminal(0), Link::Terminal(1)],
                [Link::Free, x] if random.below(2) == 0 => [x, x],
                [x, Link::Free] if random.below(2) == 0 => [x, x],
                [Link::Free, x] => [Link::Terminal(0), x],
                [x, Link::Free] => [x, Link::Terminal(0)],
                taken => taken,
            };
        }
    }

    /// A tree down to the full width; from there on what `on` says of a node of the last level or of a column.
    fn fill_columns(&mut self, mut on: impl FnMut(usize, usize, Option<usize>) -> [Link; 2]) {
        for level in 0..self.starts.len() - 1 {
            let (from, next, width) = (self.starts[level], self.starts[level + 1], self.width(level));
            let below = if level + 2 < self.starts.len() { self.width(level + 1) } else { 0 };
            for j in 0..width {
                self.links[from + j] = if below > width {
                    let right = if 2 * j + 1 < below { Link::To(next + 2 * j + 1) } else { Link::Terminal(0) };
                    [Link::To(next + (2 * j).min(below - 1)), right]
                } else if j < below {
                    on(j, below, Some(next))
                } else {
                    on(j, below, None)
                };
            }
        }
    }

    /// The words, with each node at the place that the order of its family gives it.
    fn words(&self, vars: usize, spread: usize, family: Family, random: &mut Random) -> Vec<u32> {
        let count = self.levels.len();
        let mut places: Vec<usize> = (0..count).map(|i| count + 1 - i).collect();
        if family == Family::ChildrenLast {
            (1..count).for_each(|i| places[i] = i + 1);
        } else if !matches!(family, Family::ChildrenFirst | Family::Chain(_) | Family::Columns(_)) {
            (2..count).for_each(|i| places.swap(i, 1 + random.below(i)));
        }
        let v = vars as u32;
        let mut words = vec![0; 3 * (count + 2)];
        words[..6].copy_from_slice(&[v, 0, 0, v, 1, 1]);
        for (i, pair) in self.links.iter().enumerate() {
            let link = |l: Link| match l {
                Link::To(j) => places[j] as u32,
                Link::Terminal(t) => t,
                Link::Free => unreachable!("a link was left free"),
            };
            let at = 3 * places[i];
            words[at] = (self.levels[i] * spread) as u32;
            words[at + 1] = link(pair[0]);
            words[at + 2] = link(pair[1]);
        }
        words
    }
}

pub fn vars_of(family: Family) -> usize {
    match family {
        Family::Wide => 32,
        Family::Unreduced => 64,
        Family::Chain(vars) | Family::Columns(vars) => vars,
        _ => 128,
    }
}

/// A diagram of n nodes.
pub fn diagram(family: Family, n: usize, seed: u64) -> Vec<u32> {
    let random = &mut Random(seed ^ (n as u64) << 32);
    let vars = vars_of(family);
    let count = n - 2;
    // Wide layers: as few levels as hold the nodes with a quarter of them at a level, spread over the variables.
    let most = match family {
        Family::Wide => (count as f64).log2() as usize + 3,
        _ => vars,
    };
    let mut graph = levels(count, most);
    match family {
        Family::Random | Family::ChildrenFirst | Family::ChildrenLast | Family::Wide => {
            graph.span(random);
            graph.fill_random(random);
        }
        Family::Unreduced => {
            graph.span(random);
            graph.fill_unreduced(random);
        }
        Family::Chain(_) => graph.fill_columns(|j, width, next| match next {
            Some(next) if width > 1 => [Link::To(next + j), Link::To(next + (j + 1) % width)],
            Some(next) => [Link::Terminal(0), Link::To(next)],
            None => [Link::Terminal(j as u32 % 2), Link::Terminal(1 - j as u32 % 2)],
        }),
        Family::Columns(_) => graph.fill_columns(|j, _, next| {
            let on = next.map_or(Link::Terminal(1), |next| Link::To(next + j));
            if random.below(2) == 0 { [on, Link::Terminal(0)] } else { [Link::Terminal(0), on] }
        }),
    }
    graph.words(vars, vars / graph.starts.len().min(vars), family, random)
}

/// A diagram of 4,032 nodes and 255 variables, and a count target to which its search makes thousands of cuts. Fifteen conjunctions
/// have the same weight w and stand so that priority goes round them; a sixteenth, one condition shorter, has twice as much. To
/// remove is 15 w + 1: the first round takes a node of each and leaves 1 to remove; then each round takes one node of a conjunction
/// that is gone already.
pub fn many_cuts() -> (Vec<u32>, Vec<u32>) {
    const VARS: usize = FIRST_VARS;
    const COLUMNS: usize = 16;
    const TOP: usize = 4;
    let shorter = |column: usize| column == COLUMNS - 1;
    let last = |column: usize| if shorter(column) { VARS - 2 } else { VARS - 1 };
    let mut nodes: Vec<(usize, usize)> = vec![];
    for level in 0..VARS {
        let width = if level < TOP { 1 << level } else { COLUMNS };
        nodes.extend((0..width).filter(|j| level < TOP || level <= last(*j)).map(|j| (level, j)));
    }
    let count = nodes.len();
    let place = |level: usize, j: usize| (count + 1 - nodes.iter().position(|n| *n == (level, j)).unwrap()) as u32;
    let v = VARS as u32;
    let mut words = vec![0; 3 * (count + 2)];
    words[..6].copy_from_slice(&[v, 0, 0, v, 1, 1]);
    for (level, j) in nodes.iter().copied() {
        let links = if level < TOP {
            [place(level + 1, 2 * j), place(level + 1, 2 * j + 1)]
        } else if level == last(j) {
            [0, 1]
        } else {
            [0, place(level + 1, j)]
        };
        let at = 3 * place(level, j) as usize;
        words[at..at + 3].copy_from_slice(&[level as u32, links[0], links[1]]);
    }
    // A conjunction of 251 conditions below four decisions has one valuation, the shorter one two: 17 in all, and 1 is to stay.
    (words, vec![1])
}
