/* Calls to a pool through the C interface, with guard words around all that is lent; and what a pool holds, kept apart: the reduced
 * arrays by slot, from which every word of table, slots and row is worked out anew. */
#ifndef POOLING_H
#define POOLING_H

#include "lent.h"

typedef enum { ADD, DROP, READ, SUMMARIZE } PoolCall;

static const char *const pool_calls[] = {"pool_add", "pool_drop", "pool_read", "pool_summarize"};
#define POOL_CALLS (sizeof pool_calls / sizeof *pool_calls)

typedef struct {
    PoolCall call;
    size_t slot;
    const uint32_t *words; /* of an add */
    size_t words_len, room_len, output_len;
    uint32_t seed; /* of what room and output hold at first */
} PoolRequest;

/* ---- which words are a pool, by the header's sentences */

static inline bool is_terminal_place(const uint32_t *table, uint32_t p) {
    return table[3 * p] == table[0] && table[3 * p + 1] == p && table[3 * p + 2] == p;
}

static inline bool is_free_place(const uint32_t *table, size_t p) { return p >= 2 && !table[3 * p] && !table[3 * p + 1] && !table[3 * p + 2]; }

/* Whether a node's words are right, but for others like it. */
static inline bool is_right_node(const uint32_t *table, size_t places, size_t p) {
    uint32_t var = table[3 * p], low = table[3 * p + 1], high = table[3 * p + 2];
    if (var >= table[0] || low >= places || high >= places || low == high) return false;
    return table[3 * low] > var && table[3 * high] > var;
}

static inline bool is_twice(const uint32_t *table, size_t p) {
    for (size_t q = 2; q < p; q++) {
        if (memcmp(table + 3 * q, table + 3 * p, 12) == 0) return true;
    }
    return false;
}

/* Marks what is reached from a place. The nodes are ordered. */
static inline void reach(const uint32_t *table, uint32_t p, bool *met) {
    if (met[p]) return;
    met[p] = true;
    if (p < 2) return;
    reach(table, table[3 * p + 1], met);
    reach(table, table[3 * p + 2], met);
}

/* Whether the words can be walked: all but that nodes are there once, and that each is reached. */
static inline bool is_ordered(const uint32_t *table, size_t table_len, const uint32_t *slots, size_t slots_len) {
    size_t places = table_len / 3;
    if (table_len % 3 || places < 2 || places > HOUAYLETAN_NODES || slots_len != HOUAYLETAN_SLOTS) return false;
    if (!is_terminal_place(table, 0) || !is_terminal_place(table, 1) || table[0] > HOUAYLETAN_VARS) return false;
    for (size_t k = 0; k < slots_len; k++) {
        if (slots[k] > places || (slots[k] && is_free_place(table, slots[k] - 1))) return false;
    }
    for (size_t p = 2; p < places; p++) {
        if (!is_free_place(table, p) && !is_right_node(table, places, p)) return false;
    }
    return true;
}

static inline bool well_formed(const uint32_t *table, size_t table_len, const uint32_t *slots, size_t slots_len) {
    if (!is_ordered(table, table_len, slots, slots_len)) return false;
    size_t places = table_len / 3;
    for (size_t p = 2; p < places; p++) {
        if (!is_free_place(table, p) && is_twice(table, p)) return false;
    }
    bool met[HOUAYLETAN_NODES] = {false};
    for (size_t k = 0; k < slots_len; k++) {
        if (slots[k]) reach(table, slots[k] - 1, met);
    }
    for (size_t p = 2; p < places; p++) {
        if (!met[p] && !is_free_place(table, p)) return false;
    }
    return true;
}

/* The records of a well-formed pool, two words each: its nodes one by one, and from each live slot all that is reached. */
static inline void summary_of(const uint32_t *table, size_t table_len, const uint32_t *slots, uint32_t *row) {
    size_t places = table_len / 3, vars = table[0];
    for (size_t i = 0; i < 2 * vars; i++) row[i] = 0;
    for (size_t p = 2; p < places; p++) {
        if (!is_free_place(table, p)) row[2 * table[3 * p]]++;
    }
    for (size_t k = 0; k < HOUAYLETAN_SLOTS; k++) {
        bool met[HOUAYLETAN_NODES] = {false}, tested[HOUAYLETAN_VARS] = {false};
        if (slots[k]) reach(table, slots[k] - 1, met);
        for (size_t p = 2; p < places; p++) {
            if (met[p]) tested[table[3 * p]] = true;
        }
        for (size_t x = 0; x < vars; x++) row[2 * x + 1] += tested[x];
    }
}

/* ---- what is lent */

/* What is lent to each call, and kept in between. The row is two words a record. */
typedef struct {
    Lent table, slots, row;
} Pool;

static inline Pool lend_all(const uint32_t *table, size_t table_len, const uint32_t *slots, size_t slots_len, const uint32_t *row, size_t row_len,
                            size_t guard) {
    return (Pool){lend_copy(table, table_len, 5, guard), lend_copy(slots, slots_len, 6, guard), lend_copy(row, row_len, 7, guard)};
}

static inline Pool copy_of_pool(const Pool *p) {
    return lend_all(p->table.words, p->table.len, p->slots.words, p->slots.len, p->row.words, p->row.len, 0);
}

/* Records behind those of the variables. */
#define BEHIND 2

/* With the row that belongs to the words where they are a pool. */
static inline Pool lend_pool(const uint32_t *table, size_t table_len, const uint32_t *slots, size_t slots_len, size_t guard) {
    Pool p = {lend_copy(table, table_len, 5, guard), lend_copy(slots, slots_len, 6, guard), {0}};
    bool right = well_formed(table, table_len, slots, slots_len);
    p.row = lend(right ? 2 * ((size_t)table[0] + BEHIND) : 2 * BEHIND, 7, guard);
    if (right) summary_of(table, table_len, slots, p.row.words);
    return p;
}

static inline HouayletanSignal *records(const Pool *p) { return (HouayletanSignal *)p->row.words; }

static inline Pool lend_empty_pool(size_t places, uint32_t vars, size_t guard) {
    Pool p = {lend(HOUAYLETAN_POOL(places), 5, guard), lend(HOUAYLETAN_SLOTS, 6, guard), lend(2 * ((size_t)vars + BEHIND), 7, guard)};
    houayletan_pool_empty(p.table.words, p.table.len, p.slots.words, p.slots.len, records(&p), p.row.len / 2, vars);
    return p;
}

static inline void give_pool_back(Pool *p) {
    free(p->table.all);
    free(p->slots.all);
    free(p->row.all);
}

/* Whether the row, which is long enough, is that of the words, which can be walked. */
static inline bool agrees(const Pool *p) {
    static uint32_t fresh[2 * HOUAYLETAN_VARS];
    summary_of(p->table.words, p->table.len, p->slots.words, fresh);
    return !p->table.words[0] || memcmp(p->row.words, fresh, 8 * (size_t)p->table.words[0]) == 0;
}

/* What the header says before all else of an add or a drop, or 0: the pool, the length of its row, its records. */
static inline uint32_t stands(const Pool *p) {
    if (!well_formed(p->table.words, p->table.len, p->slots.words, p->slots.len)) return 46;
    return p->row.len / 2 < p->table.words[0] ? 37 : agrees(p) ? 0 : 47;
}

/* ---- a call */

typedef struct {
    HouayletanVerdict verdict;
    Lent words, room, output; /* until they are given back */
} PoolReply;

static inline void give_reply_back(PoolReply *r) {
    free(r->words.all);
    free(r->room.all);
    free(r->output.all);
}

static inline PoolReply call_pool(Pool *p, const PoolRequest *q) {
    size_t guard = p->table.guard;
    PoolReply r = {{0, 0, 0, 0}, lend_copy(q->words, q->words_len, q->seed + 1, guard), lend(q->room_len, q->seed, guard),
                   lend(q->output_len, q->seed + 3, guard)};
    uint32_t *table = p->table.words, *slots = p->slots.words;
    size_t table_len = p->table.len, slots_len = p->slots.len, row_len = p->row.len / 2;
    HouayletanSignal *row = records(p);
    switch (q->call) {
    case ADD:
        r.verdict = houayletan_pool_add(table, table_len, slots, slots_len, row, row_len, r.words.words, r.words.len, q->slot, r.room.words, r.room.len);
        break;
    case DROP: r.verdict = houayletan_pool_drop(table, table_len, slots, slots_len, row, row_len, q->slot); break;
    case SUMMARIZE: r.verdict = houayletan_pool_summarize(table, table_len, slots, slots_len, row, row_len); break;
    case READ:
        r.verdict = houayletan_pool_read(table, table_len, slots, slots_len, q->slot, r.room.words, r.room.len, r.output.words, r.output.len);
        break;
    }
    return r;
}

/* How many words of the room are zero after a call. */
static inline size_t zeroed_by_pool(const Pool *p, const PoolRequest *q, uint32_t number) {
    if (q->call == ADD) return number == 46 || number == 37 || number == 47 ? 0 : zeroed(number, q->words_len);
    return q->call == READ && (number == 0 || number == 4) ? HOUAYLETAN_ROOM(p->table.len / 3) : 0;
}

static inline bool same_lent(const Lent *a, const Lent *b) { return a->len == b->len && (!a->len || memcmp(a->words, b->words, 4 * a->len) == 0); }

/* NULL, or what is wrong with the row after a call; was is the pool as it was before. */
static inline const char *wrong_row(const Pool *p, const Pool *was, const PoolRequest *q, uint32_t number) {
    if (number || q->call == READ) return same_lent(&p->row, &was->row) ? NULL : "the row has changed";
    size_t vars = was->table.words[0];
    if (p->row.len / 2 < vars) return "the row was too short for this answer";
    if (!is_ordered(p->table.words, p->table.len, p->slots.words, p->slots.len)) return "the words are no pool";
    if (!agrees(p)) return "the row is not the pool's";
    size_t rest = p->row.len - 2 * vars;
    if (rest && memcmp(p->row.words + 2 * vars, was->row.words + 2 * vars, 4 * rest)) return "a record behind the row's has changed";
    return NULL;
}

/* NULL, or what a call has done wrong to what it was lent; was is the pool as it was before. */
static inline const char *wrong_pool_call(const Pool *p, const Pool *was, const PoolRequest *q, const PoolReply *r) {
    uint32_t number = r->verdict.number;
    if (!guarded(&p->table) || !guarded(&p->slots) || !guarded(&p->row)) return "a guard word of the pool has changed";
    if (!guarded(&r->words) || !guarded(&r->room) || !guarded(&r->output)) return "a guard word has changed";
    if (q->words_len && memcmp(r->words.words, q->words, 4 * q->words_len)) return "the input has changed";
    bool same = same_lent(&p->table, &was->table) && same_lent(&p->slots, &was->slots);
    if ((number || q->call == READ || q->call == SUMMARIZE) && !same) return "table or slots have changed";
    const char *fault = wrong_row(p, was, q, number);
    if (fault) return fault;
    size_t zero = zeroed_by_pool(p, q, number), written = q->call == READ ? 3 * r->verdict.nodes : 0;
    if (zero > r->room.len) return "the room was too short for this answer";
    if (!zero_until(&r->room, zero)) return "the room is not zero";
    if (!kept_from(&r->room, zero)) return "the rest of the room has changed";
    if (written > r->output.len) return "the result is longer than the output";
    if (!kept_from(&r->output, written)) return "the output beyond the result has changed";
    if (number && (r->verdict.nodes || r->verdict.vars)) return "a refused verdict has counts";
    if (!number && (r->verdict.place || r->verdict.vars != was->table.words[0])) return "an accepted verdict is not the pool's";
    return NULL;
}

/* ---- what a pool holds */

/* The reduced arrays by slot; there are none where a slot is empty. */
typedef struct {
    uint32_t vars;
    size_t places;
    uint32_t *array[HOUAYLETAN_SLOTS];
    size_t len[HOUAYLETAN_SLOTS];
} Held;

static inline void hold(Held *h, size_t slot, const uint32_t *array, size_t len) {
    h->array[slot] = malloc(4 * len);
    if (!h->array[slot]) {
        fprintf(stderr, "no memory\n");
        exit(2);
    }
    memcpy(h->array[slot], array, 4 * len);
    h->len[slot] = len;
}

static inline void let_go(Held *h, size_t slot) {
    free(h->array[slot]);
    h->array[slot] = NULL, h->len[slot] = 0;
}

static inline void let_all_go(Held *h) {
    for (size_t k = 0; k < HOUAYLETAN_SLOTS; k++) let_go(h, k);
}

/* The nodes of some conditions, each once, found by a table of their places. Two full tables fit. */
#define ONCE_NODES (2 * HOUAYLETAN_NODES)
typedef struct {
    uint32_t words[3 * ONCE_NODES], slots[HOUAYLETAN_SLOTS];
    uint32_t places[4 * ONCE_NODES]; /* 0: free; else a node, which is never 0 */
    size_t count;
} Once;

static inline uint32_t place_of(Once *o, uint32_t var, uint32_t low, uint32_t high) {
    const uint32_t node[3] = {var, low, high};
    size_t at = (var * 2246822519u ^ low * 2654435761u ^ high * 3266489917u) % (4 * ONCE_NODES);
    while (o->places[at] && memcmp(o->words + 3 * o->places[at], node, sizeof node)) at = (at + 1) % (4 * ONCE_NODES);
    if (!o->places[at]) {
        memcpy(o->words + 3 * o->count, node, sizeof node);
        o->places[at] = (uint32_t)o->count++;
    }
    return o->places[at];
}

/* A reduced array is numbered on the way back, low branch first: its nodes are met in this order. The place of its root. */
static inline uint32_t place_array(Once *o, const uint32_t *array, size_t len) {
    static uint32_t became[HOUAYLETAN_NODES];
    became[0] = 0, became[1] = 1;
    for (size_t p = 2; p < len / 3; p++) became[p] = place_of(o, array[3 * p], became[array[3 * p + 1]], became[array[3 * p + 2]]);
    return became[len / 3 - 1];
}

/* All words of the slots and those of the nodes in use; and how many nodes there are, which may be more than there are places. */
static inline const Once *once(const Held *h) {
    static Once o;
    memset(o.places, 0, sizeof o.places);
    const uint32_t terminals[] = {h->vars, 0, 0, h->vars, 1, 1};
    memcpy(o.words, terminals, sizeof terminals);
    o.count = 2;
    for (size_t k = 0; k < HOUAYLETAN_SLOTS; k++) o.slots[k] = h->array[k] ? place_array(&o, h->array[k], h->len[k]) + 1 : 0;
    return &o;
}

/* Whether the row is that of what is held: the nodes once each, and the variables of each array. */
static inline bool counts_exactly(const Pool *p, const Held *h, const Once *o) {
    static uint32_t row[2 * HOUAYLETAN_VARS], last[HOUAYLETAN_VARS];
    memset(row, 0, sizeof row), memset(last, 0, sizeof last);
    for (size_t i = 2; i < o->count; i++) row[2 * o->words[3 * i]]++;
    for (uint32_t k = 0; k < HOUAYLETAN_SLOTS; k++) {
        for (size_t i = 2; i < h->len[k] / 3; i++) {
            uint32_t var = h->array[k][3 * i];
            row[2 * var + 1] += last[var] != k + 1;
            last[var] = k + 1;
        }
    }
    return p->row.len / 2 >= h->vars && memcmp(p->row.words, row, 8 * (size_t)h->vars) == 0;
}

/* Whether table, slots and row are, word by word, those of what is held. */
static inline bool holds_exactly(const Pool *p, const Held *h) {
    const Once *o = once(h);
    if (!counts_exactly(p, h, o)) return false;
    if (o->count > h->places || p->table.len != HOUAYLETAN_POOL(h->places)) return false;
    for (size_t i = 3 * o->count; i < p->table.len; i++) {
        if (p->table.words[i]) return false;
    }
    return memcmp(p->table.words, o->words, 12 * o->count) == 0 && memcmp(p->slots.words, o->slots, sizeof o->slots) == 0;
}

/* What a well-formed pool beside its row must say, and what it then holds. own is the check of the words that are added, array their reduced array. */
static inline HouayletanVerdict pool_says(Held *h, const PoolRequest *q, HouayletanVerdict own, const uint32_t *array, size_t len) {
    const HouayletanVerdict no_slot = {33, 0, 0, 0}, wrong_slot = {34, 0, 0, 0}, full = {36, 0, 0, 0};
    if (q->call == SUMMARIZE) return (HouayletanVerdict){0, 0, h->places, h->vars};
    if (q->call == ADD && own.number) return (HouayletanVerdict){own.number, own.place, 0, 0};
    if (q->slot >= HOUAYLETAN_SLOTS) return no_slot;
    if ((q->call == ADD) == (h->array[q->slot] != NULL)) return wrong_slot;
    if (q->call == READ) {
        if (q->room_len < HOUAYLETAN_ROOM(h->places)) return (HouayletanVerdict){5, 0, 0, 0};
        if (q->output_len < h->len[q->slot]) return (HouayletanVerdict){4, 0, 0, 0};
        return (HouayletanVerdict){0, 0, h->len[q->slot] / 3, h->vars};
    }
    if (q->call == ADD && q->words[0] != h->vars) return (HouayletanVerdict){35, 0, 0, 0};
    if (q->call == ADD) hold(h, q->slot, array, len); else let_go(h, q->slot);
    size_t nodes = once(h)->count;
    if (nodes <= h->places) return (HouayletanVerdict){0, 0, nodes, h->vars};
    let_go(h, q->slot);
    return full;
}

static inline bool same_verdict(HouayletanVerdict a, HouayletanVerdict b) {
    return a.number == b.number && a.place == b.place && a.nodes == b.nodes && a.vars == b.vars;
}

/* NULL, or what is wrong with an answer beside what the pool holds after it. */
static inline const char *wrong_pool_answer(const Pool *p, const Held *h, const PoolRequest *q, const PoolReply *r, HouayletanVerdict expected) {
    if (!same_verdict(r->verdict, expected)) return "another verdict";
    if (!holds_exactly(p, h)) return "table, slots and row are not those of what is held";
    if (q->call == READ && !expected.number && memcmp(r->output.words, h->array[q->slot], 4 * h->len[q->slot])) return "the array that was read";
    return NULL;
}

#endif
