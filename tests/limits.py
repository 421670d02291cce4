"""The numbers of document 01 for all scripts, each once. The library's own are crates/diagram/src/limits.rt, naturals::WORDS,
crates/pairs/src/table.rt, crates/pool/src/lib.rt, crates/blocks/src/layout.rt and crates/setting_blocks/src/layout.rt; papers.py holds these to them. The node
file's is docs/NODE-FILES.md's, the settings block's docs/SETTINGS.md's."""

MAX_NODES = 4096        # the most nodes of a diagram
MAX_VARS = 511          # the most variables
ROOM = 128              # words of working room for each node
COUNT = 16              # words of a count
BLOCK = 512             # bytes of a block
BLOCK_NODES = 50        # nodes of a whole block
FILE_NODES = 120        # the most nodes of a block file
NODE_BYTES = 10         # bytes of a node in a node file
SETTINGS_VERSION = 2    # the newest version of a settings block
PAIR = 64               # words of a table for each pair of nodes
SLOTS = 64              # conditions that a pool has places for
LENT_PAIRS = 16384      # pairs for which the program differ lends a table
