/* The tables of refusals of include/houayletan.h, the reduced diagram and when a target is met, read on their own in C. */
#ifndef READING_H
#define READING_H

#include "../tests/c/operations.h"

/* As many pairs as are counted out. */
#define PAIRS_COUNTED 20000
#include <stdlib.h>

typedef struct {
    uint32_t number;
    size_t place;
} Refused;

/* Rows 1 to 12 and 17; number 0 where the words are accepted. */
static inline Refused reading(const uint32_t *w, size_t len, size_t room, Output kind, size_t output) {
    if (len == 0) return (Refused){1, 0};
    if (len % 3) return (Refused){2, 0};
    size_t n = len / 3, count = 0;
    if (n > HOUAYLETAN_NODES) return (Refused){3, 0};
    if (output < output_asked(kind, n)) return (Refused){4, 0};
    if (room < HOUAYLETAN_ROOM_PER_NODE * (n < 2 ? 2 : n)) return (Refused){5, 0};
    uint32_t v = w[0];
    if (w[1] != 0 || w[2] != 0) return (Refused){6, 0};
    if (n >= 2 && (w[3] != v || w[4] != 1 || w[5] != 1)) return (Refused){6, 1};
    if (v > HOUAYLETAN_VARS) return (Refused){7, 0};
    for (size_t p = 2; p < n; p++) {
        if (w[3 * p] >= v) return (Refused){8, p};
        if (w[3 * p + 1] >= n) return (Refused){9, p};
        if (w[3 * p + 2] >= n) return (Refused){10, p};
    }
    static bool met[HOUAYLETAN_NODES];
    static uint32_t queue[HOUAYLETAN_NODES];
    memset(met, 0, sizeof met);
    met[n - 1] = true;
    queue[count++] = (uint32_t)n - 1;
    for (size_t i = 0; i < count; i++) {
        uint32_t p = queue[i];
        for (int side = 1; side < 3 && p >= 2; side++) {
            uint32_t child = w[3 * p + side];
            if (!met[child]) met[child] = true, queue[count++] = child;
        }
    }
    for (size_t p = 2; p < n; p++) {
        if (!met[p]) continue;
        if (w[3 * w[3 * p + 1]] <= w[3 * p]) return (Refused){11, p};
        if (w[3 * w[3 * p + 2]] <= w[3 * p]) return (Refused){17, p};
    }
    for (size_t p = 2; p < n; p++) {
        if (!met[p]) return (Refused){12, p};
    }
    return (Refused){0, 0};
}

static inline int compare_counts(const uint32_t *a, const uint32_t *b) {
    for (int i = HOUAYLETAN_COUNT_WORDS - 1; i >= 0; i--) {
        if (a[i] != b[i]) return a[i] < b[i] ? -1 : 1;
    }
    return 0;
}

/* Whether accepted words hold for some valuation: which nodes lead to node 1, from the last variable to the first. */
static inline bool holds_somewhere(const uint32_t *words, size_t n) {
    bool leads[HOUAYLETAN_NODES] = {false, true};
    for (uint32_t var = words[0]; var-- > 0;) {
        for (size_t p = 2; p < n; p++) {
            if (words[3 * p] == var) leads[p] = leads[words[3 * p + 1]] || leads[words[3 * p + 2]];
        }
    }
    return leads[n - 1];
}

/* The new number of node p of accepted words, and its node and those below it that have none yet, low branch first. Equal nodes are found
 * by a table of their places, with room for twice as many. */
#define PLACES (2 * HOUAYLETAN_NODES)
typedef struct {
    const uint32_t *words;
    uint32_t became[HOUAYLETAN_NODES]; /* 0: not yet; else the new number and 1 */
    uint32_t places[PLACES];           /* 0: free; else a new number, which is never 0 */
    uint32_t *result;
    uint32_t count;
} Reduction;

static inline uint32_t reduced_node(Reduction *r, uint32_t p) {
    if (p < 2) return p;
    if (r->became[p]) return r->became[p] - 1;
    uint32_t low = reduced_node(r, r->words[3 * p + 1]), high = reduced_node(r, r->words[3 * p + 2]), found = low;
    if (low != high) {
        uint32_t node[3] = {r->words[3 * p], low, high};
        size_t at = (node[0] * 2654435761u ^ low * 40503u ^ high * 2246822519u) % PLACES;
        while (r->places[at] && memcmp(r->result + 3 * r->places[at], node, sizeof node)) at = (at + 1) % PLACES;
        if (!r->places[at]) {
            memcpy(r->result + 3 * r->count, node, sizeof node);
            r->places[at] = r->count++;
        }
        found = r->places[at];
    }
    r->became[p] = found + 1;
    return found;
}

/* The reduced diagram of accepted words, in a place of its own until the next call; the number of its words. */
static inline const uint32_t *reading_reduce(const uint32_t *words, size_t len, size_t *result_len) {
    static uint32_t result[3 * HOUAYLETAN_NODES + 3];
    static Reduction r;
    memset(&r, 0, sizeof r);
    r.words = words, r.result = result, r.count = 2;
    const uint32_t v = words[0], terminals[] = {v, 0, 0, v, 1, 1};
    memcpy(result, terminals, sizeof terminals);
    *result_len = reduced_node(&r, (uint32_t)(len / 3) - 1) ? 3 * r.count : 3;
    return result;
}

/* Whether accepted words, which hold for count valuations, meet the target as they are given. */
static inline bool is_met(const Operation *o, const Request *q, const uint32_t *count) {
    uint32_t none[HOUAYLETAN_COUNT_WORDS] = {0};
    if (o->argument == SIZE_TARGET) return q->words_len / 3 <= q->target[0];
    if (o->argument != COUNT_TARGET) return false;
    if (o->name[0] == 'o') return compare_counts(count, q->target) >= 0;
    return compare_counts(q->target, none) > 0 && compare_counts(count, q->target) <= 0;
}

/* The other rows, for accepted words. */
static inline Refused reading_argument(const Operation *o, const Request *q) {
    size_t n = q->words_len / 3;
    if (o->argument == LIST) {
        for (size_t i = 0; i < q->list_len; i++) {
            if (q->list[i] >= n) return (Refused){13, i};
        }
        for (size_t i = 0; i < q->list_len; i++) {
            if (q->list[i] < 2) return (Refused){14, i};
        }
    }
    if (o->argument == SIZE_TARGET) {
        if (q->target[0] == 0) return (Refused){18, 0};
        if (q->target[0] == 1 && o->name[0] == 'o' && holds_somewhere(q->words, n)) return (Refused){18, 0};
    }
    if (o->argument == COUNT_TARGET) {
        bool over = o->name[0] == 'o';
        uint32_t all[HOUAYLETAN_COUNT_WORDS] = {0}, none[HOUAYLETAN_COUNT_WORDS] = {0};
        all[q->words[0] / 32] = (uint32_t)1 << q->words[0] % 32;
        int to_all = compare_counts(q->target, all);
        if (over && to_all > 0) return (Refused){16, 0};
        if (n == (over ? 1 : 2) && to_all < 0 && compare_counts(q->target, none) > 0) return (Refused){19, 0};
    }
    return (Refused){0, 0};
}

/* The rows of node files: of bytes to be read to an output, and of words to be written to a buffer. */
static inline Refused reading_bytes(size_t len, size_t output) {
    if (len == 0) return (Refused){51, 0};
    if (len >= HOUAYLETAN_BYTES(HOUAYLETAN_NODES + 1)) return (Refused){53, 0};
    if (len % HOUAYLETAN_BYTES_PER_NODE) return (Refused){52, 0};
    if (output < 3 * (len / HOUAYLETAN_BYTES_PER_NODE)) return (Refused){54, 0};
    return (Refused){0, 0};
}

static inline Refused reading_words(const uint32_t *w, size_t len, size_t bytes) {
    size_t n = len / 3;
    if (len == 0) return (Refused){1, 0};
    if (len % 3) return (Refused){2, 0};
    if (n > HOUAYLETAN_NODES) return (Refused){53, 0};
    if (bytes < HOUAYLETAN_BYTES(n)) return (Refused){54, 0};
    for (size_t p = 0; p < n; p++) {
        if (w[3 * p] > UINT16_MAX) return (Refused){55, p};
    }
    return (Refused){0, 0};
}

/* How many pairs of nodes two accepted diagrams of one variable count reach; more than `most` are not counted out. */
static inline size_t reading_pairs(const uint32_t *a, size_t a_len, const uint32_t *b, size_t b_len, size_t most) {
    static bool met[HOUAYLETAN_NODES][HOUAYLETAN_NODES];
    static uint32_t queue[PAIRS_COUNTED + 2][2];
    size_t count = 1;
    queue[0][0] = (uint32_t)(a_len / 3 - 1), queue[0][1] = (uint32_t)(b_len / 3 - 1);
    met[queue[0][0]][queue[0][1]] = true;
    for (size_t i = 0; i < count && count <= most; i++) {
        uint32_t p = queue[i][0], q = queue[i][1];
        if (p < 2 && q < 2) continue;
        /* node 1 of a one-node diagram is not there, and is not looked at */
        uint32_t x = p < 2 ? a[0] : a[3 * p], y = q < 2 ? b[0] : b[3 * q], at = x < y ? x : y;
        for (int side = 1; side < 3; side++) {
            uint32_t to_p = x == at ? a[3 * p + side] : p, to_q = y == at ? b[3 * q + side] : q;
            if (!met[to_p][to_q]) met[to_p][to_q] = true, queue[count][0] = to_p, queue[count][1] = to_q, count++;
        }
    }
    for (size_t i = 0; i < count; i++) met[queue[i][0]][queue[i][1]] = false;
    return count;
}

#endif
