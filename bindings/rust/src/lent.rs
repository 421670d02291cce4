//! The functions of `include/houayletan.h` as they are: the caller lends working room and output, and nothing is allocated.
//!
//! Any slices may be lent; what is too short is refused. The room is [`crate::limits::ROOM_PER_NODE`] words a node, for two nodes
//! at least ([`room_for`]); a diagram output 3 words a node, at least 6 ([`output_for`]). Node files need no room: their bytes are
//! [`crate::limits::BYTES_PER_NODE`] a node ([`bytes_for`]), their words 3. Neither do settings blocks, of [`crate::limits::BLOCK_BYTES`] bytes.
//!
//! ```
//! use houayletan::lent;
//!
//! let words = [1, 0, 0, 1, 1, 1, 0, 1, 1];
//! let (mut room, mut output) = ([0; lent::room_for(3)], [0; lent::output_for(3)]);
//! let made = lent::reduce(&words, &mut room, &mut output);
//! assert_eq!((made.verdict.number, made.nodes), (0, 2));
//! assert_eq!(output[..6], [1, 0, 0, 1, 1, 1]);
//! assert_eq!(lent::reduce(&words, &mut room[1..], &mut output).verdict.number, 5);
//! ```
use crate::limits::{linked, BYTES_PER_NODE, PAIR_WORDS, ROOM_PER_NODE};
use crate::Count;

/// Words of working room for a diagram of that many nodes.
pub const fn room_for(nodes: usize) -> usize {
    ROOM_PER_NODE * if nodes < 2 { 2 } else { nodes }
}

/// Words of a diagram output for a diagram of that many nodes.
pub const fn output_for(nodes: usize) -> usize {
    3 * if nodes < 2 { 2 } else { nodes }
}

/// Words of a table for that many pairs of nodes.
pub const fn table_for(pairs: usize) -> usize {
    PAIR_WORDS * pairs
}

/// Words of a pool's table of that many places.
pub const fn pool_for(places: usize) -> usize {
    3 * places
}

/// Bytes of a node file of that many nodes.
pub const fn bytes_for(nodes: usize) -> usize {
    BYTES_PER_NODE * nodes
}

/// Number 0: accepted, with the input's counts. Else refused, and the counts are 0.
#[derive(Clone, Copy, Debug, Eq, PartialEq)]
#[repr(C)]
pub struct Verdict {
    pub number: u32,
    pub place: usize,
    pub nodes: usize,
    pub vars: u32,
}

/// A verdict with a count, zero where it is refused.
#[derive(Clone, Copy, Debug, Eq, PartialEq)]
#[repr(C)]
pub struct Counted {
    pub verdict: Verdict,
    pub count: Count,
}

/// A verdict with a count as `f64`, 0.0 where it is refused.
#[derive(Clone, Copy, Debug, PartialEq)]
#[repr(C)]
pub struct CountedFloat {
    pub verdict: Verdict,
    pub count: f64,
}

/// A verdict with a number, or with a yes as 1 and a no as 0; 0 where it is refused.
#[derive(Clone, Copy, Debug, Eq, PartialEq)]
#[repr(C)]
pub struct Amount {
    pub verdict: Verdict,
    pub amount: usize,
}

/// A verdict with the number of nodes in the output, 0 where it is refused.
#[derive(Clone, Copy, Debug, Eq, PartialEq)]
#[repr(C)]
pub struct Diagram {
    pub verdict: Verdict,
    pub nodes: usize,
}

/// A diagram with the number of cuts by a list that were made for it.
#[derive(Clone, Copy, Debug, Eq, PartialEq)]
#[repr(C)]
pub struct Approximation {
    pub verdict: Verdict,
    pub nodes: usize,
    pub trials: usize,
}

/// What two diagrams are beside each other. Accepted, the verdict's nodes are the pairs of nodes reached. `which` is the diagram that a
/// refusal is about, 0 or 1; 0 where it is about none. `differ` is 1 or 0; `smallest` is a number whose highest bit of the variable count's
/// is variable 0. All but the verdict and `which` is 0 where it is refused.
#[derive(Clone, Copy, Debug, Eq, PartialEq)]
#[repr(C)]
pub struct Compared {
    pub verdict: Verdict,
    pub which: u32,
    pub differ: u32,
    pub first: Count,
    pub second: Count,
    pub both: Count,
    pub smallest: Count,
}

/// A record of the row beside a pool: what there is of one variable.
#[derive(Clone, Copy, Debug, Default, Eq, PartialEq)]
#[repr(C)]
pub struct Signal {
    /// How many nodes of the table test it, each counted once.
    pub nodes: u32,
    /// How many live slots depend on it: from whose root such a node is reached.
    pub slots: u32,
}

/// What reading or writing a node file says. Number 0: done, with the number of nodes. Else refused, and there are none.
#[derive(Clone, Copy, Debug, Eq, PartialEq)]
#[repr(C)]
pub struct Stored {
    pub number: u32,
    pub place: usize,
    pub nodes: usize,
}

/// A setting: any numbers may be offered. In range are direction 0 (under) and 1 (over), kind 0 (a size, of at most 32 bits) and 1 (a count),
/// and `as_is` 0 and 1, in version 1 only 0. [`crate::Setting`] has those and no others.
#[derive(Clone, Copy, Debug, Default, Eq, PartialEq)]
#[repr(C)]
pub struct Setting {
    pub direction: u32,
    pub kind: u32,
    pub as_is: u32,
    pub target: Count,
}

/// What reading a settings block says. Number 0: the block's version and its setting. Else refused, and all else is 0.
#[derive(Clone, Copy, Debug, Default, Eq, PartialEq)]
#[repr(C)]
pub struct SettingRead {
    pub number: u32,
    pub place: usize,
    pub version: u32,
    pub setting: Setting,
}

/// What writing one says. Number 0: so many bytes were written. Else refused, and there are none.
#[derive(Clone, Copy, Debug, Eq, PartialEq)]
#[repr(C)]
pub struct SettingWritten {
    pub number: u32,
    pub place: usize,
    pub bytes: usize,
}

// The archive's functions ask for nothing but that pointer and length are a slice's, so each is safe over slices.

/// A function of words and room.
macro_rules! asks {
    ($name:ident, $answer:ty) => {
        #[doc = concat!("[`crate::", stringify!($name), "`], over what is lent.")]
        pub fn $name(words: &[u32], room: &mut [u32]) -> $answer {
            extern "C" {
                #[link_name = linked!($name)]
                fn symbol(words: *const u32, words_len: usize, room: *mut u32, room_len: usize) -> $answer;
            }
            unsafe { symbol(words.as_ptr(), words.len(), room.as_mut_ptr(), room.len()) }
        }
    };
}

/// A function of words, room and output.
macro_rules! writes {
    ($name:ident, $answer:ty) => {
        #[doc = concat!("[`crate::", stringify!($name), "`], over what is lent.")]
        pub fn $name(words: &[u32], room: &mut [u32], output: &mut [u32]) -> $answer {
            extern "C" {
                #[link_name = linked!($name)]
                fn symbol(
                    words: *const u32, words_len: usize, room: *mut u32, room_len: usize, output: *mut u32, output_len: usize,
                ) -> $answer;
            }
            let (out, out_len) = (output.as_mut_ptr(), output.len());
            unsafe { symbol(words.as_ptr(), words.len(), room.as_mut_ptr(), room.len(), out, out_len) }
        }
    };
}

/// A cut by a list.
macro_rules! cuts_by_list {
    ($name:ident) => {
        #[doc = concat!("[`crate::", stringify!($name), "`], over what is lent.")]
        pub fn $name(words: &[u32], list: &[u32], room: &mut [u32], output: &mut [u32]) -> Diagram {
            extern "C" {
                #[link_name = linked!($name)]
                fn symbol(
                    words: *const u32, words_len: usize, list: *const u32, list_len: usize,
                    room: *mut u32, room_len: usize, output: *mut u32, output_len: usize,
                ) -> Diagram;
            }
            let (out, out_len) = (output.as_mut_ptr(), output.len());
            unsafe { symbol(words.as_ptr(), words.len(), list.as_ptr(), list.len(), room.as_mut_ptr(), room.len(), out, out_len) }
        }
    };
}

/// A cut to a target.
macro_rules! cuts_to {
    ($name:ident, $target:ty) => {
        #[doc = concat!("[`crate::", stringify!($name), "`], over what is lent.")]
        pub fn $name(words: &[u32], target: $target, as_is: bool, room: &mut [u32], output: &mut [u32]) -> Approximation {
            extern "C" {
                #[link_name = linked!($name)]
                fn symbol(
                    words: *const u32, words_len: usize, target: $target, as_is: u32,
                    room: *mut u32, room_len: usize, output: *mut u32, output_len: usize,
                ) -> Approximation;
            }
            let (out, out_len) = (output.as_mut_ptr(), output.len());
            unsafe { symbol(words.as_ptr(), words.len(), target, as_is as u32, room.as_mut_ptr(), room.len(), out, out_len) }
        }
    };
}

asks!(validate, Verdict);
asks!(exact_cardinality, Counted);
asks!(exact_clause_cardinality, Counted);
asks!(cardinality, CountedFloat);
writes!(count_and_weights, Counted);
writes!(node_valuation_weights, Verdict);
writes!(reduce, Diagram);
asks!(size, Amount);
asks!(num_vars, Amount);
asks!(is_true, Amount);
asks!(is_false, Amount);
asks!(is_clause, Amount);
asks!(is_valuation, Amount);
writes!(size_per_variable, Verdict);
writes!(not, Diagram);
cuts_by_list!(underapproximate);
cuts_by_list!(overapproximate);
cuts_to!(underapproximate_to_size, u32);
cuts_to!(overapproximate_to_size, u32);
cuts_to!(underapproximate_to_cardinality, Count);
cuts_to!(overapproximate_to_cardinality, Count);

/// Makes the first `count` words zero, or all where there are fewer.
pub fn clear(room: &mut [u32], count: usize) {
    extern "C" {
        #[link_name = linked!(clear)]
        fn symbol(room: *mut u32, room_len: usize, count: usize);
    }
    unsafe { symbol(room.as_mut_ptr(), room.len(), count) }
}

/// [`crate::compare`], over what is lent: a room for the larger of the two ([`room_for`]) and a table ([`table_for`]). It is refused 32
/// where more pairs are reached than the table has whole places for.
pub fn compare(first: &[u32], second: &[u32], room: &mut [u32], table: &mut [u32]) -> Compared {
    extern "C" {
        #[link_name = linked!(compare)]
        fn symbol(
            first: *const u32, first_len: usize, second: *const u32, second_len: usize,
            room: *mut u32, room_len: usize, table: *mut u32, table_len: usize,
        ) -> Compared;
    }
    let (one, other) = ((first.as_ptr(), first.len()), (second.as_ptr(), second.len()));
    unsafe { symbol(one.0, one.1, other.0, other.1, room.as_mut_ptr(), room.len(), table.as_mut_ptr(), table.len()) }
}

/// Writes the empty pool of that many variables: the two terminals and zeros, also to the variables' records of the row. Where the table has
/// fewer than two places, [`pool_for`] a number over [`crate::MOST_NODES`], the slots are not [`crate::limits::SLOTS`] or the variables too many,
/// each call says 46 of it; where the row has fewer records, an add or a drop says 37.
pub fn pool_empty(table: &mut [u32], slots: &mut [u32], row: &mut [Signal], vars: u32) {
    table.fill(0);
    slots.fill(0);
    row.iter_mut().take(vars as usize).for_each(|signal| *signal = Signal::default());
    if let Some(terminals) = table.get_mut(..pool_for(2)) {
        terminals.copy_from_slice(&[vars, 0, 0, vars, 1, 1]);
    }
}

/// [`crate::Pool::add`], over what is lent: table ([`pool_for`]), slots and row, a record for each variable, and a room for the diagram
/// ([`room_for`]). The verdict's nodes are those in use afterwards. Before all others it is refused 46 where table and slots are no pool, 37 where
/// the row has fewer records than the pool has variables, and 47 where a record does not agree with the pool. Records behind those of the
/// variables are neither looked at nor changed.
pub fn pool_add(table: &mut [u32], slots: &mut [u32], row: &mut [Signal], words: &[u32], slot: usize, room: &mut [u32]) -> Verdict {
    extern "C" {
        #[link_name = "houayletan_pool_add_4"]
        fn symbol(
            table: *mut u32, table_len: usize, slots: *mut u32, slots_len: usize, row: *mut Signal, row_len: usize,
            words: *const u32, words_len: usize, slot: usize, room: *mut u32, room_len: usize,
        ) -> Verdict;
    }
    let (of_table, of_slots) = ((table.as_mut_ptr(), table.len()), (slots.as_mut_ptr(), slots.len()));
    let (of_row, of_words) = ((row.as_mut_ptr(), row.len()), (words.as_ptr(), words.len()));
    let (rest, rest_len) = (room.as_mut_ptr(), room.len());
    unsafe { symbol(of_table.0, of_table.1, of_slots.0, of_slots.1, of_row.0, of_row.1, of_words.0, of_words.1, slot, rest, rest_len) }
}

/// [`crate::Pool::drop`], over what is lent. The verdict's nodes are those in use afterwards. Before all others it is refused 46, 37 and 47,
/// as for [`pool_add`].
pub fn pool_drop(table: &mut [u32], slots: &mut [u32], row: &mut [Signal], slot: usize) -> Verdict {
    extern "C" {
        #[link_name = "houayletan_pool_drop_4"]
        fn symbol(
            table: *mut u32, table_len: usize, slots: *mut u32, slots_len: usize, row: *mut Signal, row_len: usize, slot: usize,
        ) -> Verdict;
    }
    let (of_table, of_slots) = ((table.as_mut_ptr(), table.len()), (slots.as_mut_ptr(), slots.len()));
    unsafe { symbol(of_table.0, of_table.1, of_slots.0, of_slots.1, row.as_mut_ptr(), row.len(), slot) }
}

/// Works the row of a pool out, whatever it holds: for one that was kept without a row, and after 47. The verdict's nodes are the table's
/// places. It is refused 46, then 37.
///
/// ```
/// use houayletan::lent::{self, Signal};
///
/// // x0 in slot 0, true in slot 1
/// let (table, mut slots) = ([2, 0, 0, 2, 1, 1, 0, 0, 1], [0; 64]);
/// (slots[0], slots[1]) = (3, 2);
/// let mut row = [Signal { nodes: 7, slots: 7 }; 3];
/// assert_eq!(lent::pool_summarize(&table, &slots, &mut row).number, 0);
/// assert_eq!(row.map(|signal| (signal.nodes, signal.slots)), [(1, 1), (0, 0), (7, 7)]);
/// assert_eq!(lent::pool_summarize(&table, &slots, &mut row[..1]).number, 37);
/// ```
pub fn pool_summarize(table: &[u32], slots: &[u32], row: &mut [Signal]) -> Verdict {
    extern "C" {
        #[link_name = linked!(pool_summarize)]
        fn symbol(table: *const u32, table_len: usize, slots: *const u32, slots_len: usize, row: *mut Signal, row_len: usize) -> Verdict;
    }
    unsafe { symbol(table.as_ptr(), table.len(), slots.as_ptr(), slots.len(), row.as_mut_ptr(), row.len()) }
}

/// [`crate::Pool::read`], over what is lent: a room for as many nodes as the table has places ([`room_for`]), and an output that is as long as
/// the answer. The verdict's nodes are the answer's. It is refused 46, 33, 34, then 5 and then 4.
pub fn pool_read(table: &[u32], slots: &[u32], slot: usize, room: &mut [u32], output: &mut [u32]) -> Verdict {
    extern "C" {
        #[link_name = linked!(pool_read)]
        fn symbol(
            table: *const u32, table_len: usize, slots: *const u32, slots_len: usize, slot: usize,
            room: *mut u32, room_len: usize, output: *mut u32, output_len: usize,
        ) -> Verdict;
    }
    let (of_table, of_slots) = ((table.as_ptr(), table.len()), (slots.as_ptr(), slots.len()));
    let (out, out_len) = (output.as_mut_ptr(), output.len());
    unsafe { symbol(of_table.0, of_table.1, of_slots.0, of_slots.1, slot, room.as_mut_ptr(), room.len(), out, out_len) }
}

/// [`crate::read_as_bytes`], over what is lent: the words are the first of the output, 3 for each node. Besides 51, 53 and 52 it is
/// refused 54 where the output is shorter.
pub fn read_as_bytes(bytes: &[u8], output: &mut [u32]) -> Stored {
    extern "C" {
        #[link_name = linked!(read_as_bytes)]
        fn symbol(bytes: *const u8, bytes_len: usize, output: *mut u32, output_len: usize) -> Stored;
    }
    unsafe { symbol(bytes.as_ptr(), bytes.len(), output.as_mut_ptr(), output.len()) }
}

/// [`crate::write_as_bytes`], over what is lent: the file is the first of the bytes. It is refused 54 where they are fewer, after 53
/// and before 55.
pub fn write_as_bytes(words: &[u32], bytes: &mut [u8]) -> Stored {
    extern "C" {
        #[link_name = linked!(write_as_bytes)]
        fn symbol(words: *const u32, words_len: usize, bytes: *mut u8, bytes_len: usize) -> Stored;
    }
    unsafe { symbol(words.as_ptr(), words.len(), bytes.as_mut_ptr(), bytes.len()) }
}

/// [`crate::read_settings`], as the library answers.
pub fn read_settings(block: &[u8]) -> SettingRead {
    extern "C" {
        #[link_name = linked!(read_settings)]
        fn symbol(block: *const u8, block_len: usize) -> SettingRead;
    }
    unsafe { symbol(block.as_ptr(), block.len()) }
}

/// [`crate::read_settings_v1`], as the library answers.
pub fn read_settings_v1(block: &[u8]) -> SettingRead {
    extern "C" {
        #[link_name = linked!(read_settings_v1)]
        fn symbol(block: *const u8, block_len: usize) -> SettingRead;
    }
    unsafe { symbol(block.as_ptr(), block.len()) }
}

/// [`crate::write_settings`], over what is lent: the block is the first of the output. Besides 38 and 39, which comes up for any field out of its
/// range, it is refused 4 where the output is shorter, after them.
pub fn write_settings(version: u32, setting: Setting, output: &mut [u8]) -> SettingWritten {
    extern "C" {
        #[link_name = linked!(write_settings)]
        fn symbol(version: u32, setting: Setting, output: *mut u8, output_len: usize) -> SettingWritten;
    }
    unsafe { symbol(version, setting, output.as_mut_ptr(), output.len()) }
}
