//! The numbers of Houayletan, each once. The library's own are crates/diagram/src/limits.rt, naturals::WORDS,
//! crates/pairs/src/table.rt, crates/pool/src/lib.rt, crates/blocks/src/layout.rt and crates/setting_blocks/src/layout.rt; tests/papers.py holds
//! these to them.

/// The most nodes of a diagram that is accepted.
pub const MOST_NODES: usize = 4096;

/// The most variables of a diagram that is accepted.
pub const MOST_VARS: usize = 511;

/// The words of working room for each node.
pub const ROOM_PER_NODE: usize = 128;

/// The words of a count.
pub const COUNT_WORDS: usize = 16;

/// The words of a pair of nodes in the table of a comparison.
pub const PAIR_WORDS: usize = 64;

/// The conditions that a pool has slots for.
pub const SLOTS: usize = 64;

/// The bytes of a node in a node file.
pub const BYTES_PER_NODE: usize = 10;

/// The bytes of a settings block.
pub const BLOCK_BYTES: usize = 512;

/// The newest version of a settings block.
pub const SETTINGS_VERSION: usize = 2;

/// The name for the linker of a function that the header calls `houayletan_..`, as its `HOUAYLETAN_LINKED` makes it.
macro_rules! linked {
    ($name:ident) => {
        concat!("houayletan_", stringify!($name), "_3")
    };
}
pub(crate) use linked;
