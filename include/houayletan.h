/* Houayletan for C and C++: decision diagrams as 32-bit words, each function proved to meet its contract.
 *
 * A diagram is three words a node: variable, low link, high link. Node 0 is the zero terminal (v, 0, 0), node 1 the one
 * terminal (v, 1, 1), v the variable count; one node alone is false, two are true; the root is the last node.
 * At most HOUAYLETAN_NODES nodes and HOUAYLETAN_VARS variables: these and all other numbers are in houayletan_limits.h.
 * Nodes may stand in any order, equal nodes and nodes with low = high are taken.
 * A valuation's path starts at the root and follows low for 0, high for 1; the diagram holds where the path ends at node 1.
 *
 * Any words may be offered: what is no diagram is refused, with a number and a place. Lengths are counted in words, those of
 * bytes in bytes, that of a row in records. A pointer is not null, also where its length is 0, points to that many, and what a call writes to does not
 * overlap what it reads. Nothing is allocated and nothing is kept between calls; calls with buffers of their own may run in
 * several threads. Link target/staticlib/libhouayletan.a (x86-64).
 *
 * Below, n is the number of nodes of the input and m the larger of n and 2.
 *
 *   room      at least HOUAYLETAN_ROOM(n) words, HOUAYLETAN_ROOM_PER_NODE x m. What it holds at first does not matter. Refusal
 *             5 and those before it leave it as it was; those after it, and all answers, leave its first HOUAYLETAN_ROOM(n)
 *             words zero and the rest as it was.
 *   output    at least HOUAYLETAN_OUTPUT(n) words, 3 x m, for a diagram; HOUAYLETAN_WEIGHTS(n), a count for each node, for
 *             weights; HOUAYLETAN_VARS for sizes by variable, whatever the answer needs. A refusal leaves it as it was; an
 *             answer leaves it as it was beyond the result.
 *   table     of a comparison: HOUAYLETAN_TABLE(pairs) words, HOUAYLETAN_PAIR_WORDS for each pair of nodes. What it holds at first
 *             does not matter. The diagrams' own refusals and 31 leave it as it was; 32, and all answers, leave its whole pairs zero
 *             and the words beyond them as they were.
 *   count     HOUAYLETAN_COUNT_WORDS words of 32 bits, least first.
 *
 * Numbers of refusal, in the order in which the checks run (docs/RULES.md has the same table, with the paper that each row
 * comes from). The diagram's own are those from 1 to 12 in this table, 17 among them; 4 only where there is an output.
 *
 *   no.  given when                                                     place
 *    1   no words                                                       0
 *    2   the number of words is not a multiple of 3                     0
 *    3   more than HOUAYLETAN_NODES nodes                               0
 *    4   the output, where there is one, is too short                   0
 *    5   the working room is too short                                  0
 *    6   node 0 or node 1 is no terminal of count v                     the first such node
 *    7   v is over HOUAYLETAN_VARS                                      0
 *    8   a variable is v or more                                        the node
 *    9   a low link is past the nodes                                   the node
 *   10   a high link is past the nodes                                  the node
 *   11   a reachable non-terminal has a child not at a larger variable: its low child
 *                                                                       the smallest node with such a child
 *   17   the same: its high child, and not its low child                the smallest node with such a child
 *   12   a non-terminal is unreachable                                  the smallest such node
 *   13   a listed pointer is past the nodes                             the first such place in the list, from 0
 *   14   a terminal is listed                                           the first terminal's place in the list, from 0
 *   18   a size target that no answer can meet: 0; for an overapproximation also 1, where the diagram holds for some valuation
 *                                                                       0
 *   16   a count target above 2^v for an overapproximation              0
 *   19   a count target strictly between 0 and 2^v: under on two nodes, over on one
 *                                                                       0
 *   31   two diagrams have different variable counts                    0
 *   32   two diagrams reach more pairs of nodes than the table holds    0
 *   46   table and slots are no well-formed pool: before all others     0
 *   37   the row has fewer records than the pool has variables: after 46, before all others
 *                                                                       0
 *   47   a record of the row does not agree with the pool: after 37, before all others
 *                                                                       0
 *   33   a pool has no slot of that number                              0
 *   34   the slot is taken, for an add; it is empty, for a drop or a read
 *                                                                       0
 *   35   the pool has another variable count than the diagram           0
 *   36   the pool has no room: the distinct nodes of all live conditions and the new one, both terminals among them, are more than
 *        the table's places                                             0
 *
 * Of 8, 9 and 10 the first faulty node is reported, and in it the variable, then low, then high. Of 11 and 17 likewise: the
 * node is chosen first, then its low child comes before its high child.
 *
 * A pool holds up to HOUAYLETAN_SLOTS conditions of one variable count v in one table of nodes, in which no node stands twice: what
 * conditions have in common takes its places once. It is two buffers that the caller keeps from call to call; docs/POOL.md has an example.
 *
 *   table     HOUAYLETAN_POOL(places) words, for 2 to HOUAYLETAN_NODES places: three words a place, as a diagram has them for a node. Places 0
 *             and 1 are the terminals (v, 0, 0) and (v, 1, 1), and always count as used. Any other place is a node, or it is free, and
 *             then its three words are 0.
 *   slots     HOUAYLETAN_SLOTS words. 0: the slot is empty. Any other word: the slot is live, and the word is the place of its
 *             condition's root and 1 more; so 1 is false and 2 is true.
 *
 * Empty, it is the two terminals and zeros: houayletan_pool_empty writes that. Well formed it is exactly where both lengths are as above;
 * places 0 and 1 are the terminals of one v, at most HOUAYLETAN_VARS; every live slot names a terminal or a node; and of the nodes after the
 * terminals each has its variable below v, its links to places of the table, both children at a larger variable, and not the same child
 * twice, no two have the same three words, and each is reached from a live slot. Nodes and free places may stand in any order. After an
 * accepted add or drop they stand in one order: the live conditions one after the other by their slots, of each the nodes that are not there
 * yet, numbered on the way back, low branch first; then the free places. So all words then depend on what the slots hold, and not on the
 * calls that led there.
 *
 * Beside it lies a summary, one record for each variable, which add and drop hold to the pool before and bring up to date after:
 *
 *   row       at least v records. nodes: how many nodes of the table test the variable; one that several conditions have in common counts
 *             once. slots: how many live slots depend on it, which is, from whose root a node that tests it is reached; false and true depend on
 *             none. Records from v on are neither looked at nor changed.
 *
 * The row of an empty pool is zeros. A pool that has no row yet, or another pool's, gets its own by houayletan_pool_summarize. Reading takes none.
 *
 * A node file is HOUAYLETAN_BYTES_PER_NODE bytes for each node, in the order of the nodes: variable (2), low link (4), high
 * link (4), each least byte first, with nothing before, between or after them; 1 to HOUAYLETAN_NODES nodes. Reading and writing
 * take any words, diagram or not, and refuse with these numbers, in the order in which the checks run; writing has 1 and 2 before
 * them.
 *
 *   no.  given when                                                     place
 *   51   reading: the file is empty                                     0
 *   53   more than HOUAYLETAN_NODES nodes                               0
 *   52   reading: the length of the file is not a multiple of ten       0
 *   54   the output, or the buffer for the file, is too short           0
 *   55   writing: a variable is over 65,535                             the first such node
 *
 * For 53 the whole nodes of a file are counted: one to nine bytes more than HOUAYLETAN_BYTES(HOUAYLETAN_NODES) are refused 52, and
 * any longer file 53. So whoever reads from a stream has to look at HOUAYLETAN_BYTES(HOUAYLETAN_NODES + 1) bytes and no more.
 *
 * A settings block is what is stored beside a condition, so that it is cut as it was meant also after an upgrade: direction, kind of target, target
 * and, from version 2 on, as_is. It has HOUAYLETAN_BLOCK_BYTES bytes; docs/SETTINGS.md has their layout. Equal settings of one version have equal
 * blocks. Reading and writing refuse with these numbers, in the order in which the checks run, the place being 0; writing has 4 after them,
 * for an output of fewer bytes.
 *
 *   no.  given when
 *   21   reading: there are not HOUAYLETAN_BLOCK_BYTES bytes
 *   22   reading: a check sum is wrong
 *   38   the version is not known: 0, or above the reader's; for writing above HOUAYLETAN_SETTINGS_VERSION
 *   39   a field is out of its range: direction, kind or as_is above 1, or a size over 32 bits; for writing also an as_is of 1 in version 1
 *   24   reading: unused bytes are not zero
 *
 * No count is out of its range. Whether a condition can be cut so is not looked at: size 0 is stored, and refused 18 where it is cut.
 */
#ifndef HOUAYLETAN_H
#define HOUAYLETAN_H

#include "houayletan_limits.h"
#include <stddef.h>
#include <stdint.h>

#ifdef __cplusplus
extern "C" {
#endif

/* The words of working room, of a diagram output and of a weight output for an input of n nodes. */
#define HOUAYLETAN_ROOM(n) (HOUAYLETAN_ROOM_PER_NODE * ((size_t)(n) < 2 ? (size_t)2 : (size_t)(n)))
#define HOUAYLETAN_OUTPUT(n) (3 * ((size_t)(n) < 2 ? (size_t)2 : (size_t)(n)))
#define HOUAYLETAN_WEIGHTS(n) (HOUAYLETAN_COUNT_WORDS * (size_t)(n))

/* The words of a table for so many pairs of nodes. */
#define HOUAYLETAN_TABLE(pairs) (HOUAYLETAN_PAIR_WORDS * (size_t)(pairs))

/* The words of a pool's table of so many places. */
#define HOUAYLETAN_POOL(places) (3 * (size_t)(places))

/* The bytes of a node file of n nodes. */
#define HOUAYLETAN_BYTES(n) (HOUAYLETAN_BYTES_PER_NODE * (size_t)(n))

/* The functions' names for the linker: what was compiled against an older header does not link. They ended in nothing at first; in 2
 * those of the four cuts to a target, when these took as_is; in 3 all, when a count got sixteen words, and structs, rooms and
 * outputs became longer; in 4 those of the pool's add and drop, when these took the row. Source uses the names without the number. */
#define HOUAYLETAN_LINKED(name) name##_3
#define houayletan_validate HOUAYLETAN_LINKED(houayletan_validate)
#define houayletan_exact_cardinality HOUAYLETAN_LINKED(houayletan_exact_cardinality)
#define houayletan_cardinality HOUAYLETAN_LINKED(houayletan_cardinality)
#define houayletan_exact_clause_cardinality HOUAYLETAN_LINKED(houayletan_exact_clause_cardinality)
#define houayletan_count_and_weights HOUAYLETAN_LINKED(houayletan_count_and_weights)
#define houayletan_node_valuation_weights HOUAYLETAN_LINKED(houayletan_node_valuation_weights)
#define houayletan_reduce HOUAYLETAN_LINKED(houayletan_reduce)
#define houayletan_clear HOUAYLETAN_LINKED(houayletan_clear)
#define houayletan_size HOUAYLETAN_LINKED(houayletan_size)
#define houayletan_num_vars HOUAYLETAN_LINKED(houayletan_num_vars)
#define houayletan_is_true HOUAYLETAN_LINKED(houayletan_is_true)
#define houayletan_is_false HOUAYLETAN_LINKED(houayletan_is_false)
#define houayletan_is_clause HOUAYLETAN_LINKED(houayletan_is_clause)
#define houayletan_is_valuation HOUAYLETAN_LINKED(houayletan_is_valuation)
#define houayletan_size_per_variable HOUAYLETAN_LINKED(houayletan_size_per_variable)
#define houayletan_not HOUAYLETAN_LINKED(houayletan_not)
#define houayletan_underapproximate HOUAYLETAN_LINKED(houayletan_underapproximate)
#define houayletan_overapproximate HOUAYLETAN_LINKED(houayletan_overapproximate)
#define houayletan_underapproximate_to_size HOUAYLETAN_LINKED(houayletan_underapproximate_to_size)
#define houayletan_overapproximate_to_size HOUAYLETAN_LINKED(houayletan_overapproximate_to_size)
#define houayletan_underapproximate_to_cardinality HOUAYLETAN_LINKED(houayletan_underapproximate_to_cardinality)
#define houayletan_overapproximate_to_cardinality HOUAYLETAN_LINKED(houayletan_overapproximate_to_cardinality)
#define houayletan_compare HOUAYLETAN_LINKED(houayletan_compare)
#define houayletan_pool_add houayletan_pool_add_4
#define houayletan_pool_drop houayletan_pool_drop_4
#define houayletan_pool_read HOUAYLETAN_LINKED(houayletan_pool_read)
#define houayletan_pool_summarize HOUAYLETAN_LINKED(houayletan_pool_summarize)
#define houayletan_read_as_bytes HOUAYLETAN_LINKED(houayletan_read_as_bytes)
#define houayletan_write_as_bytes HOUAYLETAN_LINKED(houayletan_write_as_bytes)
#define houayletan_read_settings HOUAYLETAN_LINKED(houayletan_read_settings)
#define houayletan_read_settings_v1 HOUAYLETAN_LINKED(houayletan_read_settings_v1)
#define houayletan_write_settings HOUAYLETAN_LINKED(houayletan_write_settings)

/* number 0: accepted, with the counts of nodes and of variables, and place 0.
 * Any other number: refused; place is as in the table, nodes and vars are 0. */
typedef struct {
    uint32_t number;
    size_t place;
    size_t nodes;
    uint32_t vars;
} HouayletanVerdict;

/* A verdict with a count, which is 0 where the input is refused. */
typedef struct {
    HouayletanVerdict verdict;
    uint32_t count[HOUAYLETAN_COUNT_WORDS];
} HouayletanCount;

/* A verdict with a count as a double, which is 0.0 where the input is refused. */
typedef struct {
    HouayletanVerdict verdict;
    double count;
} HouayletanFloat;

/* A verdict, whose counts are those of the input, with the number of nodes in the output, 0 where the input is refused. */
typedef struct {
    HouayletanVerdict verdict;
    size_t nodes;
} HouayletanDiagram;

/* The check of any words as a diagram. Refusals: the diagram's own. */
HouayletanVerdict houayletan_validate(const uint32_t *words, size_t words_len, uint32_t *room, size_t room_len);

/* How many of the 2^v valuations the diagram holds for. Refusals: the diagram's own. */
HouayletanCount houayletan_exact_cardinality(const uint32_t *words, size_t words_len, uint32_t *room, size_t room_len);

/* The same as a double: exact up to 2^53; beyond, each node's sum is rounded once. Refusals: the diagram's own. */
HouayletanFloat houayletan_cardinality(const uint32_t *words, size_t words_len, uint32_t *room, size_t room_len);

/* How many paths lead from the root to node 1, in the array as it stands. Refusals: the diagram's own. */
HouayletanCount houayletan_exact_clause_cardinality(const uint32_t *words, size_t words_len, uint32_t *room, size_t room_len);

/* How many of the 2^v valuations the diagram holds for, and for each node, in HOUAYLETAN_COUNT_WORDS words of the output, how
 * many of these have a path that visits it: its weight. The output is HOUAYLETAN_WEIGHTS(n) words. The one-node diagram has
 * count 0 and one weight of 0. Costs what the weights alone do. Refusals: the diagram's own. */
HouayletanCount houayletan_count_and_weights(const uint32_t *words, size_t words_len, uint32_t *room, size_t room_len,
                                             uint32_t *output, size_t output_len);

/* The weights alone. Refusals: the diagram's own. */
HouayletanVerdict houayletan_node_valuation_weights(const uint32_t *words, size_t words_len, uint32_t *room, size_t room_len,
                                                    uint32_t *output, size_t output_len);

/* The reduced diagram of the same function: no node with low = high, no two equal nodes, only reachable ones; nodes after
 * the terminals numbered on the way back, low branch first, root last. Refusals: the diagram's own. */
HouayletanDiagram houayletan_reduce(const uint32_t *words, size_t words_len, uint32_t *room, size_t room_len,
                                    uint32_t *output, size_t output_len);

/* Makes the first count words of room zero, or all of them where there are fewer. No refusals. */
void houayletan_clear(uint32_t *room, size_t room_len, size_t count);

/* A verdict with a number, or with a yes as 1 and a no as 0; 0 where the input is refused. */
typedef struct {
    HouayletanVerdict verdict;
    size_t amount;
} HouayletanAmount;

/* As HouayletanDiagram, with the number of cuts by a list that the search made, the last included; 0 where it made none. */
typedef struct {
    HouayletanVerdict verdict;
    size_t nodes;
    size_t trials;
} HouayletanApproximation;

/* A number of as many words as a count, least first: a count target, by value. */
typedef struct {
    uint32_t words[HOUAYLETAN_COUNT_WORDS];
} HouayletanNatural;

/* The number of nodes of the array, and of variables. Refusals: the diagram's own. */
HouayletanAmount houayletan_size(const uint32_t *words, size_t words_len, uint32_t *room, size_t room_len);
HouayletanAmount houayletan_num_vars(const uint32_t *words, size_t words_len, uint32_t *room, size_t room_len);

/* Whether the array has two nodes, and whether it has one: true and false by the array alone. Refusals: the diagram's own. */
HouayletanAmount houayletan_is_true(const uint32_t *words, size_t words_len, uint32_t *room, size_t room_len);
HouayletanAmount houayletan_is_false(const uint32_t *words, size_t words_len, uint32_t *room, size_t room_len);

/* Whether the diagram is one conjunction of literals, and whether it holds for one valuation alone. A yes is right; a no is
 * right for a reduced array. Refusals: the diagram's own. */
HouayletanAmount houayletan_is_clause(const uint32_t *words, size_t words_len, uint32_t *room, size_t room_len);
HouayletanAmount houayletan_is_valuation(const uint32_t *words, size_t words_len, uint32_t *room, size_t room_len);

/* How many nodes each variable has: the first v words of an output of at least HOUAYLETAN_VARS. Refusals: the diagram's own. */
HouayletanVerdict houayletan_size_per_variable(const uint32_t *words, size_t words_len, uint32_t *room, size_t room_len,
                                               uint32_t *output, size_t output_len);

/* The negation: constants exchange; else links 0 and 1 exchange and every node keeps its place. Refusals: the diagram's own. */
HouayletanDiagram houayletan_not(const uint32_t *words, size_t words_len, uint32_t *room, size_t room_len,
                                 uint32_t *output, size_t output_len);

/* Cuts by a list of node pointers: links to listed nodes go to 0 (under) or to 1 (over), then the diagram is reduced. A
 * listed root gives false or true. Repeats are harmless, the empty list reduces. Refusals: the diagram's own, then 13 and 14:
 * a terminal may not be listed, also where it is the root, so of one or two nodes only the empty list is taken. */
HouayletanDiagram houayletan_underapproximate(const uint32_t *words, size_t words_len, const uint32_t *list, size_t list_len,
                                              uint32_t *room, size_t room_len, uint32_t *output, size_t output_len);
HouayletanDiagram houayletan_overapproximate(const uint32_t *words, size_t words_len, const uint32_t *list, size_t list_len,
                                             uint32_t *room, size_t room_len, uint32_t *output, size_t output_len);

/* Cuts to a target. Where the array meets it as it is given, nothing is cut and there are no trials: the answer is the reduced diagram,
 * or where as_is is not 0 the words as they are. What reducing leaves is not looked at for that, and a search begins with the array
 * itself. Without as_is every answer is reduced. */

/* To at most target nodes, the nodes of least weight first; no answer has more. Met by target nodes or fewer. Any other array gives
 * false (under) or true (over) for target 2, and false for target 1: from above only where the diagram holds for no valuation,
 * whatever its array. Refusals: the diagram's own, then 18. */
HouayletanApproximation houayletan_underapproximate_to_size(const uint32_t *words, size_t words_len, uint32_t target, uint32_t as_is,
                                                            uint32_t *room, size_t room_len, uint32_t *output, size_t output_len);
HouayletanApproximation houayletan_overapproximate_to_size(const uint32_t *words, size_t words_len, uint32_t target, uint32_t as_is,
                                                           uint32_t *room, size_t room_len, uint32_t *output, size_t output_len);

/* To a count of at most target (under) or at least target (over). Met where the count is so already, except that under to 0 gives the
 * one-node false, whatever as_is. Refusals: the diagram's own, then 16 (over), then 19. */
HouayletanApproximation houayletan_underapproximate_to_cardinality(const uint32_t *words, size_t words_len, HouayletanNatural target, uint32_t as_is,
                                                                   uint32_t *room, size_t room_len, uint32_t *output, size_t output_len);
HouayletanApproximation houayletan_overapproximate_to_cardinality(const uint32_t *words, size_t words_len, HouayletanNatural target, uint32_t as_is,
                                                                  uint32_t *room, size_t room_len, uint32_t *output, size_t output_len);

/* What a comparison of two diagrams says. verdict: accepted, with the number of pairs of nodes that were reached as nodes, and the
 * variable count v. which: the diagram that a refusal is about, 0 the first and 1 the second; 0 where it is about none (31, 32), and
 * where nothing is refused. first, second, both: how many valuations hold in the first only, in the second only and in both, each as a
 * count. differ: 1 where there is a valuation that holds in one and not in the other, else 0. smallest: the smallest such, as a number of
 * v bits in which x0 weighs most, so that variable i is bit v - 1 - i: HOUAYLETAN_BIT(smallest, v - 1 - i). It is 0 where there is none, so look at
 * differ first: all zeros may be the smallest too, and of no variables it always is. All but verdict and which is 0 where it is refused. */
typedef struct {
    HouayletanVerdict verdict;
    uint32_t which;
    uint32_t differ;
    uint32_t first[HOUAYLETAN_COUNT_WORDS];
    uint32_t second[HOUAYLETAN_COUNT_WORDS];
    uint32_t both[HOUAYLETAN_COUNT_WORDS];
    uint32_t smallest[HOUAYLETAN_COUNT_WORDS];
} HouayletanComparison;

/* Bit i of a number of HOUAYLETAN_COUNT_WORDS words, least first. */
#define HOUAYLETAN_BIT(words, i) ((words)[(i) / 32] >> (i) % 32 & 1)

/* Two diagrams of one variable count beside each other. Pairs of nodes are gone through from the two roots: the side with the smaller
 * variable steps, both where they are equal, until both are terminals; also where the two nodes are the same. Each pair that is reached
 * takes a place in the table, pairs of terminals too: at most the product of the two diagrams' nodes, mostly far fewer. After 32 lend a
 * longer one. The room serves both checks in turn and has to be long enough for the larger diagram: HOUAYLETAN_ROOM of it. Where the second
 * is refused 5 or before, what the check of the first left zero stays zero. Refusals: the first diagram's own, then the second's, then 31,
 * then 32. */
HouayletanComparison houayletan_compare(const uint32_t *first, size_t first_len, const uint32_t *second, size_t second_len,
                                        uint32_t *room, size_t room_len, uint32_t *table, size_t table_len);

/* A record of the row beside a pool: how many live nodes test a variable, and how many live slots depend on it. */
typedef struct {
    uint32_t nodes;
    uint32_t slots;
} HouayletanSignal;

/* Writes the empty pool of vars variables to table and slots, and zeros to its records of the row, the first vars. Where the lengths or vars are
 * not as above, the first call says 46, or 37 where it is the row's length. */
static inline void houayletan_pool_empty(uint32_t *table, size_t table_len, uint32_t *slots, size_t slots_len, HouayletanSignal *row,
                                         size_t row_len, uint32_t vars) {
    for (size_t i = 0; i < table_len; i++) table[i] = 0;
    for (size_t i = 0; i < slots_len; i++) slots[i] = 0;
    for (size_t i = 0; i < row_len && i < vars; i++) row[i].nodes = row[i].slots = 0;
    if (table_len < HOUAYLETAN_POOL(2)) return;
    table[0] = table[3] = vars;
    table[4] = table[5] = 1;
}

/* The calls to a pool. Accepted, the verdict has the variable count; after an add or a drop nodes is how many nodes are in use, both
 * terminals among them, and after a read how many the answer has. Any words may be offered, and any records. What is not a well-formed pool is
 * refused 46, which is decided before anything else that is lent is looked at. After any refusal every word of table, slots and row is as it
 * was. After an accepted add or drop the row's first v records are those of the pool as it then is. */

/* Puts a condition in an empty slot, in reduced form; nodes that are in the table already take no place. The room is asked for by the diagram
 * alone: HOUAYLETAN_ROOM(n), whatever the table. After 46, 37 and 47 it is as it was, and else as houayletan_validate of the diagram leaves it.
 * Refusals: 46, 37, 47, the diagram's own, then 33, 34, 35, 36. */
HouayletanVerdict houayletan_pool_add(uint32_t *table, size_t table_len, uint32_t *slots, size_t slots_len, HouayletanSignal *row, size_t row_len,
                                      const uint32_t *words, size_t words_len, size_t slot, uint32_t *room, size_t room_len);

/* Empties a slot. The places of nodes that no other slot reaches are free again. It takes no room. Refusals: 46, 37, 47, 33, 34. */
HouayletanVerdict houayletan_pool_drop(uint32_t *table, size_t table_len, uint32_t *slots, size_t slots_len, HouayletanSignal *row, size_t row_len,
                                       size_t slot);

/* Works the row out, whatever it holds: for a pool that was kept without one, and after 47. Accepted, nodes is the number of the table's
 * places. Refusals: 46, 37. */
HouayletanVerdict houayletan_pool_summarize(const uint32_t *table, size_t table_len, const uint32_t *slots, size_t slots_len, HouayletanSignal *row,
                                            size_t row_len);

/* The reduced array of a slot's condition, as houayletan_reduce numbers it, in the first words of the output. The room is asked for by the
 * table: HOUAYLETAN_ROOM(places). 46, 33, 34 and 5 leave it as it was; 4, and all answers, leave so many words zero and the rest as it was.
 * The output has to be as long as the array, and no longer: 3 words are enough for false. Refusals: 46, 33, 34, then 5, then 4. */
HouayletanVerdict houayletan_pool_read(const uint32_t *table, size_t table_len, const uint32_t *slots, size_t slots_len, size_t slot,
                                       uint32_t *room, size_t room_len, uint32_t *output, size_t output_len);

/* What reading or writing a node file says. number 0: done, with the number of nodes, and place 0. Any other number: refused; place is
 * as in the table, nodes is 0. */
typedef struct {
    uint32_t number;
    size_t place;
    size_t nodes;
} HouayletanStored;

/* The nodes of a node file, three words each, in the first words of an output of at least 3 x nodes; whether they are a diagram is not
 * looked at. A refusal leaves the output as it was, an answer leaves it as it was beyond the nodes. Refusals: 51, 53, 52, 54. */
HouayletanStored houayletan_read_as_bytes(const uint8_t *bytes, size_t bytes_len, uint32_t *output, size_t output_len);

/* The node file of any words, in the first of at least HOUAYLETAN_BYTES(nodes) bytes. A refusal leaves the bytes as they were, an answer
 * leaves them as they were beyond the file. Refusals: 1, 2, 53, 54, 55. */
HouayletanStored houayletan_write_as_bytes(const uint32_t *words, size_t words_len, uint8_t *bytes, size_t bytes_len);

/* A setting. Any numbers may be offered; in range are direction HOUAYLETAN_UNDER and HOUAYLETAN_OVER, kind HOUAYLETAN_TO_SIZE and
 * HOUAYLETAN_TO_COUNT, as_is 0 and 1. target has its least word first; a size is the first word, and the others are 0. What is stored is cut by
 * houayletan_underapproximate_to_size, houayletan_overapproximate_to_size, houayletan_underapproximate_to_cardinality or
 * houayletan_overapproximate_to_cardinality, to this target and with this as_is. */
typedef struct {
    uint32_t direction;
    uint32_t kind;
    uint32_t as_is;
    uint32_t target[HOUAYLETAN_COUNT_WORDS];
} HouayletanSetting;

/* Direction and kind of a setting: under is what suppress conditions are cut by, over what keep conditions are. */
#define HOUAYLETAN_UNDER 0
#define HOUAYLETAN_OVER 1
#define HOUAYLETAN_TO_SIZE 0
#define HOUAYLETAN_TO_COUNT 1

/* What reading a settings block says. number 0: read, with the block's version and its setting, and place 0. Any other number: refused, and all
 * else is 0: nothing of the block is shown. */
typedef struct {
    uint32_t number;
    size_t place;
    uint32_t version;
    HouayletanSetting setting;
} HouayletanSettingRead;

/* What writing one says. number 0: written, with HOUAYLETAN_BLOCK_BYTES as bytes, and place 0. Any other number: refused, and bytes is 0. */
typedef struct {
    uint32_t number;
    size_t place;
    size_t bytes;
} HouayletanSettingWritten;

/* The setting of a block of any version up to HOUAYLETAN_SETTINGS_VERSION; from version 1 as_is is 0. Who reads from a stream has to look at
 * HOUAYLETAN_BLOCK_BYTES + 1 bytes and no more. Refusals: 21, 22, 38, 39, 24. */
HouayletanSettingRead houayletan_read_settings(const uint8_t *block, size_t block_len);

/* The same of version 1 alone: any later one is refused 38, before a field of it is looked at. For what has no as_is to cut with, and must not
 * cut otherwise than was meant. Refusals: 21, 22, 38, 39, 24. */
HouayletanSettingRead houayletan_read_settings_v1(const uint8_t *block, size_t block_len);

/* The block of a setting in a version, in the first HOUAYLETAN_BLOCK_BYTES bytes of the output. A refusal leaves the output as it was, an answer
 * leaves it as it was beyond the block. What is written reads back as it was. Refusals: 38, 39, 4. */
HouayletanSettingWritten houayletan_write_settings(uint32_t version, HouayletanSetting setting, uint8_t *output, size_t output_len);

#ifdef __cplusplus
}
#endif

#endif
