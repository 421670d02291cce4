use crate::{lent, nodes_of, Count, Refusal};
use std::fmt::{Display, Formatter};

/// Two diagrams beside each other.
#[derive(Clone, Copy, Debug, Eq, PartialEq)]
pub struct Comparison {
    /// How many pairs of nodes were reached.
    pub pairs: usize,
    /// How many variables there are.
    pub vars: u32,
    /// How many valuations hold in the first only.
    pub first: Count,
    /// How many valuations hold in the second only.
    pub second: Count,
    /// How many valuations hold in both.
    pub both: Count,
    /// The smallest valuation that holds in one and not in the other, `x0` weighing most; none where both hold for the same.
    pub smallest: Option<Valuation>,
}

/// A value for each variable.
#[derive(Clone, Copy, Debug, Eq, Hash, PartialEq)]
pub struct Valuation {
    vars: u32,
    number: Count,
}

impl Valuation {
    /// How many variables there are.
    pub fn vars(&self) -> u32 {
        self.vars
    }

    /// As a number of that many bits: variable 0 is the highest.
    pub fn number(&self) -> Count {
        self.number
    }

    /// The value of a variable. There must be such a variable.
    pub fn value(&self, variable: u32) -> bool {
        assert!(variable < self.vars, "there is no variable {variable}, only {} of them", self.vars);
        let bit = self.vars - 1 - variable;
        self.number.words()[bit as usize / 32] >> (bit % 32) & 1 == 1
    }
}

/// A digit for each variable, variable 0 first.
impl Display for Valuation {
    fn fmt(&self, f: &mut Formatter<'_>) -> std::fmt::Result {
        let digits: String = (0..self.vars).map(|i| if self.value(i) { '1' } else { '0' }).collect();
        f.pad(&digits)
    }
}

/// Why two diagrams are not compared.
///
/// ```
/// let (x0, link_past_the_nodes) = ([1, 0, 0, 1, 1, 1, 0, 0, 1], [1, 0, 0, 1, 1, 1, 0, 0, 3]);
/// let refused = houayletan::compare(&x0, &link_past_the_nodes).unwrap_err();
/// assert_eq!((refused.refusal.number, refused.which), (10, Some(1)));
/// assert_eq!(refused.to_string(), "the second diagram: refused 10 at 2: node 2 has a high link past the nodes");
///
/// let refused = houayletan::compare(&x0, &[2, 0, 0]).unwrap_err();
/// assert_eq!(refused.to_string(), "refused 31 at 0: the diagrams have different variable counts");
/// ```
#[derive(Clone, Copy, Debug, Eq, Hash, PartialEq)]
pub struct RefusedComparison {
    /// What is wrong.
    pub refusal: Refusal,
    /// With which diagram: the first (0) or the second (1). None where each by itself is right.
    pub which: Option<u32>,
}

impl Display for RefusedComparison {
    fn fmt(&self, f: &mut Formatter<'_>) -> std::fmt::Result {
        match self.which {
            None => write!(f, "{}", self.refusal),
            Some(0) => write!(f, "the first diagram: {}", self.refusal),
            Some(_) => write!(f, "the second diagram: {}", self.refusal),
        }
    }
}

impl std::error::Error for RefusedComparison {}

impl From<RefusedComparison> for Refusal {
    fn from(refused: RefusedComparison) -> Refusal {
        refused.refusal
    }
}

pub(crate) const OTHER_VARIABLES: u32 = 31;
pub(crate) const TOO_MANY_PAIRS: u32 = 32;

/// After 32 the table gets so many times as long.
const GROWTH: usize = 4;

fn told(answer: lent::Compared) -> Result<Comparison, RefusedComparison> {
    let lent::Compared { verdict, which, differ, first, second, both, smallest } = answer;
    let lent::Verdict { number, place, nodes: pairs, vars } = verdict;
    match number {
        0 => {
            let smallest = (differ == 1).then_some(Valuation { vars, number: smallest });
            Ok(Comparison { pairs, vars, first, second, both, smallest })
        }
        OTHER_VARIABLES | TOO_MANY_PAIRS => Err(RefusedComparison { refusal: Refusal { number, place }, which: None }),
        _ => Err(RefusedComparison { refusal: Refusal { number, place }, which: Some(which) }),
    }
}

/// Two diagrams of one variable count: how many valuations hold in the first only, in the second only and in both, and the smallest in
/// which they differ.
///
/// It goes through the pairs of nodes that are reached from the two roots, in a table of [`lent::table_for`] words, which is lengthened
/// until it holds them all: pairs are at most as many as the product of the two diagrams' nodes, mostly far fewer. Who wants to bound
/// the memory lends a table to [`lent::compare`]. Refusals: the first diagram's own, then the second's, then 31.
///
/// ```
/// // x2, or x0 and x1; and x2
/// let (tonight, yesterday) = ([3, 0, 0, 3, 1, 1, 2, 0, 1, 1, 2, 1, 0, 2, 3], [3, 0, 0, 3, 1, 1, 2, 0, 1]);
/// let compared = houayletan::compare(&tonight, &yesterday)?;
/// assert_eq!((compared.first, compared.second, compared.both), (1u32.into(), 0u32.into(), 4u32.into()));
/// let smallest = compared.smallest.unwrap();
/// assert_eq!((smallest.value(0), smallest.value(1), smallest.value(2)), (true, true, false));
/// assert_eq!(smallest.to_string(), "110");
///
/// assert_eq!(houayletan::compare(&tonight, &tonight)?.smallest, None);
/// # Ok::<(), houayletan::RefusedComparison>(())
/// ```
pub fn compare(first: &[u32], second: &[u32]) -> Result<Comparison, RefusedComparison> {
    let [one, other] = [first, second].map(|words| nodes_of(words).max(1));
    let mut room = vec![0; lent::room_for(one.max(other))];
    let most = one * other;
    let mut pairs = (one + other).min(most);
    loop {
        let answer = lent::compare(first, second, &mut room, &mut vec![0; lent::table_for(pairs)]);
        if answer.verdict.number != TOO_MANY_PAIRS {
            return told(answer);
        }
        pairs = (GROWTH * pairs).min(most);
    }
}

#[cfg(test)]
mod tests {
    use super::*;
    use crate::{exact_cardinality, MOST_VARS};

    /// The valuations below a number of `v` bits that has one bit set: x0 weighs most.
    fn below(v: u32, bit: u32) -> Vec<u32> {
        let mut words = vec![v, 0, 0, v, 1, 1];
        let mut rest = 1;
        for variable in (0..v - bit).rev() {
            words.extend([variable, rest, 0]);
            rest = words.len() as u32 / 3 - 1;
        }
        words
    }

    #[test]
    fn every_bit_of_the_smallest() {
        let v = MOST_VARS as u32;
        let all = [v, 0, 0, v, 1, 1];
        for bit in 0..v {
            let low = below(v, bit);
            let compared = compare(&low, &all).unwrap();
            let smallest = compared.smallest.unwrap();
            assert_eq!((smallest.number(), smallest.vars()), (Count::power_of_two(bit), v));
            assert!((0..v).all(|i| smallest.value(i) == (i == v - 1 - bit)));
            assert_eq!((compared.first, compared.both), (Count::ZERO, Count::power_of_two(bit)));
            assert_eq!(compare(&all, &low).unwrap().first, compared.second);
        }
    }

    #[test]
    fn constants_of_no_variables() {
        let compared = compare(&[0, 0, 0], &[0, 0, 0, 0, 1, 1]).unwrap();
        let smallest = compared.smallest.unwrap();
        assert_eq!((compared.pairs, compared.vars, smallest.vars(), smallest.number()), (1, 0, 0, Count::ZERO));
        assert_eq!(smallest.to_string(), "");
        assert_eq!(compare(&[0, 0, 0], &[0, 0, 0]).unwrap().smallest, None);
    }

    #[test]
    fn a_table_that_grows() {
        // remainders of the number read, by one modulus and by another: pairs are as the product
        let remainder = |modulus: u32| {
            let mut words = vec![12, 0, 0, 12, 1, 1];
            let mut level: Vec<u32> = (0..modulus).map(|r| (r == 0) as u32).collect();
            for variable in (0..12u32).rev() {
                let first = words.len() as u32 / 3;
                let width = if variable == 0 { 1 } else { modulus.min(1 << variable) };
                for r in 0..width {
                    words.extend([variable, level[(2 * r % modulus) as usize], level[((2 * r + 1) % modulus) as usize]]);
                }
                level = (first..first + width).collect();
            }
            words
        };
        let (a, b) = (remainder(61), remainder(53));
        let compared = compare(&a, &b).unwrap();
        assert!(compared.pairs > GROWTH * (a.len() + b.len()) / 3, "{}", compared.pairs);
        assert_eq!(compared.both, 2u32.into());
        // 0 and 61 times 53 hold in both; the first of the rest is 53
        assert_eq!(compared.smallest.unwrap().number(), 53u32.into());
        let count = |words: &[u32]| u64::try_from(exact_cardinality(words).unwrap()).unwrap();
        assert_eq!(u64::try_from(compared.first).unwrap(), count(&a) - 2);
        assert_eq!(u64::try_from(compared.second).unwrap(), count(&b) - 2);
    }

    #[test]
    fn refusals_name_their_diagram() {
        let x0 = [1, 0, 0, 1, 1, 1, 0, 0, 1];
        let said = |first: &[u32], second: &[u32]| {
            let refused = compare(first, second).unwrap_err();
            (refused.refusal.number, refused.refusal.place, refused.which)
        };
        assert_eq!(said(&[], &[]), (1, 0, Some(0)));
        assert_eq!(said(&x0, &[]), (1, 0, Some(1)));
        assert_eq!(said(&[1, 0], &[]), (2, 0, Some(0)));
        assert_eq!(said(&x0, &[1, 0, 0, 2, 1, 1]), (6, 1, Some(1)));
        assert_eq!(said(&[2, 0, 0], &x0), (31, 0, None));
        assert_eq!(Refusal::from(compare(&x0, &[]).unwrap_err()).number, 1);
    }

    #[test]
    fn over_what_is_lent() {
        let (x0, no) = ([1, 0, 0, 1, 1, 1, 0, 0, 1], [1, 0, 0]);
        let mut room = [7; lent::room_for(3) + 1];
        let mut table = [7; lent::table_for(3) + 1];
        // false and x0 reach three pairs
        let answer = lent::compare(&no, &x0, &mut room, &mut table[..lent::table_for(3) - 1]);
        assert_eq!((answer.verdict.number, answer.which), (TOO_MANY_PAIRS, 0));
        assert!(table[..lent::table_for(2)].iter().all(|w| *w == 0) && table[lent::table_for(2)..].iter().all(|w| *w == 7));
        let answer = lent::compare(&no, &x0, &mut room, &mut table);
        assert_eq!((answer.verdict.number, answer.verdict.nodes, answer.differ), (0, 3, 1));
        assert_eq!((answer.second, answer.smallest), (1u32.into(), 1u32.into()));
        assert!(table[..lent::table_for(3)].iter().all(|w| *w == 0) && table[lent::table_for(3)] == 7);
        assert!(room[..lent::room_for(3)].iter().all(|w| *w == 0) && room[lent::room_for(3)] == 7);
    }
}
