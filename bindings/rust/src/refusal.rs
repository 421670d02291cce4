use crate::limits::{BLOCK_BYTES, MOST_NODES, MOST_VARS, SLOTS};
use std::fmt::{Display, Formatter};

/// In decimal, a comma before each three digits.
fn in_threes(n: usize) -> String {
    if n < 1000 { n.to_string() } else { format!("{},{:03}", in_threes(n / 1000), n % 1000) }
}

/// Why an input is refused: a number and a place, as the table of `include/houayletan.h` says, and a sentence.
///
/// ```
/// let refusal = houayletan::validate(&[1, 0, 0, 1, 1, 1, 0, 2, 1]).unwrap_err();
/// assert_eq!((refusal.number, refusal.place), (11, 2));
/// assert_eq!(refusal.to_string(), "refused 11 at 2: node 2 has a low child that is not at a larger variable");
///
/// let refusal = houayletan::validate(&[1, 0, 0, 1, 1, 1, 0, 1, 2]).unwrap_err();
/// assert_eq!(refusal.to_string(), "refused 17 at 2: node 2 has a high child that is not at a larger variable");
/// ```
#[derive(Clone, Copy, Debug, Eq, Hash, PartialEq)]
pub struct Refusal {
    /// 1 to 19, but 15; 21, 22, 24, 38 and 39 of settings blocks; 31 and 32 of two diagrams; 33 to 37, 46 and 47 of a pool; 51 to 55 of node files.
    pub number: u32,
    /// A node, a place in the list of a cut, or 0.
    pub place: usize,
}

impl Refusal {
    /// What is wrong, in words.
    pub fn sentence(&self) -> String {
        let place = self.place;
        match self.number {
            1 => "there are no words".into(),
            2 => "the number of words is not a multiple of three".into(),
            3 => format!("there are more than {} nodes", in_threes(MOST_NODES)),
            4 => "the output is too short".into(),
            5 => "the working room is too short".into(),
            6 => format!("node {place} is not the terminal that stands there in a diagram, with node 0's variable count"),
            7 => format!("there are more than {MOST_VARS} variables"),
            8 => format!("node {place} has a variable that is not below the variable count"),
            9 => format!("node {place} has a low link past the nodes"),
            10 => format!("node {place} has a high link past the nodes"),
            11 => format!("node {place} has a low child that is not at a larger variable"),
            12 => format!("node {place} can't be reached from the root"),
            13 => format!("the pointer at place {place} of the list is past the nodes"),
            14 => format!("the pointer at place {place} of the list is a terminal"),
            16 => "the count to reach is above the number of all valuations".into(),
            17 => format!("node {place} has a high child that is not at a larger variable"),
            18 => "no answer has so few nodes; 2 are always enough".into(),
            19 => "a constant can't be cut to a count between 0 and the number of all valuations".into(),
            21 => format!("there are not {BLOCK_BYTES} bytes"),
            22 => "a check sum is wrong".into(),
            24 => "unused bytes are not zero".into(),
            31 => "the diagrams have different variable counts".into(),
            32 => "more pairs of nodes are reached than the table holds".into(),
            33 => format!("a pool has {SLOTS} slots, from 0 on, and not this one"),
            34 => "the slot is taken, where a condition is added, or empty, where one is read or dropped".into(),
            35 => "the pool has another variable count than the diagram".into(),
            36 => "the pool has no room for so many distinct nodes".into(),
            37 => "the row has fewer records than the pool has variables".into(),
            38 => "the version is not known".into(),
            39 => "a field is out of its range".into(),
            46 => "the table and the slots are no well-formed pool".into(),
            47 => "a record of the row doesn't agree with the pool".into(),
            51 => "the file is empty".into(),
            52 => "the length of the file is not a multiple of ten bytes".into(),
            53 => format!("there are more than {} nodes", in_threes(MOST_NODES)),
            54 => "the output is too short".into(),
            55 => format!("node {place} has a variable over {}", in_threes(u16::MAX.into())),
            number => format!("number {number} is in no table"),
        }
    }
}

impl Display for Refusal {
    fn fmt(&self, f: &mut Formatter<'_>) -> std::fmt::Result {
        write!(f, "refused {} at {}: {}", self.number, self.place, self.sentence())
    }
}

impl std::error::Error for Refusal {}
