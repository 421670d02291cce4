/* The numbers of Houayletan for C and C++, each once. The library's own are crates/diagram/src/limits.rt, naturals::WORDS,
 * crates/pairs/src/table.rt, crates/pool/src/lib.rt, crates/blocks/src/layout.rt and crates/setting_blocks/src/layout.rt; tests/papers.py holds
 * these to them. */
#ifndef HOUAYLETAN_LIMITS_H
#define HOUAYLETAN_LIMITS_H

/* The most nodes and the most variables of a diagram. */
#define HOUAYLETAN_NODES 4096
#define HOUAYLETAN_VARS 511

/* The words of working room for each node. */
#define HOUAYLETAN_ROOM_PER_NODE 128

/* The words of a count. */
#define HOUAYLETAN_COUNT_WORDS 16

/* The words of a pair of nodes in the table of a comparison. */
#define HOUAYLETAN_PAIR_WORDS 64

/* The conditions that a pool has slots for. */
#define HOUAYLETAN_SLOTS 64

/* The bytes of a node in a node file. */
#define HOUAYLETAN_BYTES_PER_NODE 10

/* The bytes of a settings block, and the newest version of it. */
#define HOUAYLETAN_BLOCK_BYTES 512
#define HOUAYLETAN_SETTINGS_VERSION 2

#endif
