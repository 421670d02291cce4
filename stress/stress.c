/* Random and damaged words through the C interface, with guard words around every lent buffer:
 *
 *     stress SEED REQUESTS [GUARD]   GUARD words on each side, 16 unless given; 0 for a memory checker, which sees the first
 *                                    word beyond a buffer by itself; and a quarter as many node files more, with guard bytes, a
 *                                    quarter as many comparisons of two diagrams, a quarter as many calls to pools, and a quarter
 *                                    as many settings blocks
 *     stress deep                    the longest paths, each operation on a stack of its own: how many bytes of it are used
 *
 * Of every call: guard words, input, room and output as the header says; number and place as a reading of the table says; and
 * of an answer what can be seen from outside (a result is accepted, a cut goes the right way and meets its target; reduced where it
 * must be, by a reduction of its own, and the input's words where as_is keeps them; node 0 weighs nothing, node 1 and the root as
 * much as the count, which the count and weights together give too, and no node more). Of every node file: guards, input and what is
 * beyond the result; number and place; words and bytes by another way of reading them; and the way back. Of every comparison: guards,
 * inputs, room and table; number, place and diagram; the pairs counted by another search; both counts add up to the diagrams' own; the
 * smallest is a difference; and of few variables counts and smallest by looking at every valuation. Of every call to a pool: guards, input,
 * room and output; number and place by a reading of the header's sentences, also of words that are no pool and of rows that are too short or
 * another pool's; and every word of table, slots, row and output from the reduced arrays of what was put in each slot last. Of every settings
 * block: guards, input and what is beyond the result; every field and every byte by a reading of the rules, of blocks that are whole, damaged in
 * a few bytes with the sums left or mended, cut, lengthened or any bytes at all; and the way back. */
#include "../tests/c/comparing.h"
#include "../tests/c/pooling.h"
#include "../tests/c/settings.h"
#include "reading.h"
#include <pthread.h>

static uint64_t state;

static uint64_t next(void) {
    uint64_t z = state += 0x9e3779b97f4a7c15u;
    z = (z ^ z >> 30) * 0xbf58476d1ce4e5b9u;
    z = (z ^ z >> 27) * 0x94d049bb133111ebu;
    return z ^ z >> 31;
}

static size_t below(size_t n) { return next() % n; }
static bool one_in(size_t n) { return below(n) == 0; }

/* The most variables, the words and bits of a count; and more nodes than are taken. */
#define VARS HOUAYLETAN_VARS
#define COUNT_WORDS HOUAYLETAN_COUNT_WORDS
#define COUNT_BITS (32 * COUNT_WORDS)
#define MOST (HOUAYLETAN_NODES + 104)
/* The most variables, and the words of a count, at first. */
#define FIRST_VARS 255
#define FIRST_WORDS 8
static uint32_t words[3 * MOST], list[MOST];

/* An accepted diagram of at most `most` nodes: each node but the root hangs at a free link of an earlier level, and the
 * links left over go to a terminal or deeper. Returns the number of words. */
static size_t accepted(size_t most) {
    static uint32_t free_links[2 * MOST], var[MOST], place[MOST];
    static uint32_t link[2 * MOST];
    uint32_t v = (uint32_t)(one_in(2) ? below(9) : one_in(8) ? VARS : below(VARS + 1));
    words[0] = v, words[1] = words[2] = 0;
    if (one_in(20)) return 3;
    words[3] = v, words[4] = words[5] = 1;
    if (v == 0 || most < 3 || one_in(20)) return 6;
    size_t count = 1, free_count = 0, new_from = 0;
    var[0] = (uint32_t)below(one_in(3) ? v : 1);
    uint32_t deepest = var[0];
    link[0] = link[1] = UINT32_MAX;
    for (uint32_t x = var[0] + 1; x < v; x++) {
        for (; new_from < count; new_from++) free_links[free_count++] = (uint32_t)(2 * new_from), free_links[free_count++] = (uint32_t)(2 * new_from + 1);
        size_t width = below(2 * ((most - 2 - count) / (v - x)) + 2);
        for (size_t i = 0; i < width && free_count && count < most - 2; i++) {
            size_t at = below(free_count);
            link[free_links[at]] = (uint32_t)(2 + count);
            free_links[at] = free_links[--free_count];
            var[count] = x, link[2 * count] = link[2 * count + 1] = UINT32_MAX;
            count++, deepest = x;
        }
    }
    size_t mode = below(3); /* terminals mostly; deeper nodes mostly; the same as the other link */
    for (size_t i = 0; i < 2 * count; i++) {
        if (link[i] != UINT32_MAX) continue;
        uint32_t other = link[i ^ 1];
        if (mode == 2 && other != UINT32_MAX && one_in(2)) {
            link[i] = other;
        } else if (var[i / 2] == deepest || mode == 0 || one_in(4)) {
            link[i] = (uint32_t)below(2);
        } else {
            size_t to;
            do to = count - 1 - below(one_in(2) || count < 4 ? count : 4); while (var[to] <= var[i / 2]);
            link[i] = (uint32_t)(2 + to);
        }
    }
    /* the root last, the others in any order */
    for (size_t i = 0; i < count; i++) place[i] = (uint32_t)(count + 1 - i);
    for (size_t i = 2; i < count && mode != 1; i++) {
        size_t j = 1 + below(i);
        uint32_t swap = place[i];
        place[i] = place[j], place[j] = swap;
    }
    for (size_t i = 0; i < count; i++) {
        uint32_t *node = words + 3 * place[i];
        node[0] = var[i];
        for (int side = 0; side < 2; side++) node[1 + side] = link[2 * i + side] < 2 ? link[2 * i + side] : place[link[2 * i + side] - 2];
    }
    return 3 * (count + 2);
}

static size_t damaged(size_t len) {
    if (len < 3) return len;
    size_t n = len / 3, at = below(3 * n);
    uint32_t edges[] = {0, 1, 2, VARS, VARS + 1, 65536, UINT32_MAX, (uint32_t)n, (uint32_t)n - 1, (uint32_t)n + 1, words[0], words[0] - 1};
    switch (below(9)) {
    case 0: return below(len + 1);
    case 1: return 3 * below(n + 1);
    case 2: words[at] = (uint32_t)next(); return len;
    case 3: words[at] = edges[below(sizeof edges / 4)]; return len;
    case 4: words[at] = (uint32_t)below(n + 1); return len;
    case 5: words[at] ^= (uint32_t)1 << below(32); return len;
    case 6:
        words[len] = words[0] ? (uint32_t)below(words[0]) : 0, words[len + 1] = (uint32_t)below(n), words[len + 2] = (uint32_t)below(n);
        return len + 3;
    case 7:
        words[0] = edges[below(sizeof edges / 4)];
        if (n > 1) words[3] = words[0];
        return len;
    default: at = 3 * (at / 3) + 1 + below(2); words[at] = (uint32_t)below(n); return len;
    }
}

static size_t any_words(void) {
    size_t most = below(100);
    most = most < 80 ? 2 + below(12) : most < 95 ? 10 + below(100) : most < 99 ? 100 + below(700) : 1000 + below(HOUAYLETAN_NODES - 999);
    if (one_in(50)) {
        size_t len = below(40);
        uint32_t range = one_in(2) ? 4 : UINT32_MAX;
        for (size_t i = 0; i < len; i++) words[i] = (uint32_t)below(range);
        return len;
    }
    size_t len = accepted(most);
    if (one_in(3)) {
        for (size_t times = 1 + below(3); times && len; times--) len = damaged(len);
    }
    return one_in(5000) ? 3 * (HOUAYLETAN_NODES + 1) : len;
}

static size_t any_list(size_t n) {
    size_t len = one_in(4) ? 0 : 1 + below(one_in(4) ? (n < MOST - 1 ? n + 1 : n) : 4);
    for (size_t i = 0; i < len; i++) {
        size_t p = one_in(8) ? below(3) : one_in(12) ? n + below(2) : n > 3 ? 2 + below(n - 2) : below(n + 1);
        list[i] = one_in(100) ? UINT32_MAX : (uint32_t)p;
    }
    return len;
}

static void any_target(const Operation *o, size_t n, uint32_t v, uint32_t *target) {
    memset(target, 0, COUNT_WORDS * sizeof target[0]);
    if (o->argument == SIZE_TARGET) {
        target[0] = one_in(10) ? (uint32_t)next() : (uint32_t)below(one_in(10) ? 3 : n + 3);
    } else if (o->argument == COUNT_TARGET) {
        uint32_t bits = one_in(6) ? COUNT_BITS : (v > VARS ? VARS : v) + (uint32_t)one_in(8);
        bits -= (uint32_t)below(1 + (one_in(2) ? bits : bits < 4 ? bits : 4));
        for (uint32_t i = 0; i < COUNT_WORDS; i++) {
            uint32_t here = bits > 32 * i ? bits - 32 * i : 0;
            target[i] = here >= 32 ? (uint32_t)next() : here ? (uint32_t)next() & (((uint32_t)1 << here) - 1) : 0;
        }
        if (one_in(10)) memset(target, 0, COUNT_WORDS * sizeof target[0]);
        if (one_in(10) && v < COUNT_BITS) memset(target, 0, COUNT_WORDS * sizeof target[0]), target[v / 32] = (uint32_t)1 << v % 32;
    }
}

/* No, yes, and other words that are a yes. */
static uint32_t any_flag(void) { return one_in(2) ? 0 : one_in(2) ? 1 : one_in(2) ? (uint32_t)1 << below(32) : (uint32_t)next(); }

static unsigned long made, refused[32];
static unsigned long files, file_refused[2][64]; /* of reading and of writing, by number */
static unsigned long kept, reduced, reworded; /* of the targets that the array meets: with as_is, without, and without to other words */
static unsigned long many_vars, wide_counts, wide_targets; /* of the answers: more variables, or more words, than there were at first */

static uint32_t spare_room[HOUAYLETAN_ROOM_PER_NODE * HOUAYLETAN_NODES];

static void count_of(const uint32_t *w, size_t len, uint32_t *count) {
    HouayletanCount c = houayletan_exact_cardinality(w, len, spare_room, sizeof spare_room / 4);
    memcpy(count, c.count, sizeof c.count);
}

static bool same_words(const uint32_t *a, size_t a_len, const uint32_t *b, size_t b_len) { return a_len == b_len && memcmp(a, b, 4 * a_len) == 0; }

/* NULL, or what is wrong with the words of a reduction, or of a cut: reduced, but for what as_is keeps. before: the input's count. */
static const char *wrong_words(const Operation *o, const Request *q, const Reply *r, const uint32_t *before) {
    if (strcmp(o->name, "not") == 0) return NULL;
    bool met = is_met(o, q, before);
    if (met && r->value[1]) return "a target that is met has trials";
    if (met && q->as_is) {
        kept++;
        return same_words(q->output, r->written, q->words, q->words_len) ? NULL : "as_is has not kept the words";
    }
    size_t len;
    const uint32_t *own = reading_reduce(q->output, r->written, &len);
    if (!same_words(q->output, r->written, own, len)) return "the result is not reduced";
    if (!met && strcmp(o->name, "reduce") != 0) return NULL;
    own = reading_reduce(q->words, q->words_len, &len);
    if (met) reduced++, reworded += !same_words(own, len, q->words, q->words_len);
    return same_words(q->output, r->written, own, len) ? NULL : "the result is not the reduced input";
}

/* NULL, or what is wrong with an answer's diagram. */
static const char *wrong_result(const Operation *o, const Request *q, const Reply *r) {
    if (o->output != DIAGRAM) return NULL;
    const uint32_t *out = q->output;
    size_t len = r->written;
    if (len != 3 * r->value[0]) return "nodes and words of the result";
    if (reading(out, len, SIZE_MAX, NO_OUTPUT, 0).number || out[0] != q->words[0]) return "the result is no diagram";
    uint32_t before[COUNT_WORDS], after[COUNT_WORDS];
    count_of(q->words, q->words_len, before);
    count_of(out, len, after);
    int way = compare_counts(after, before);
    bool under = strncmp(o->name, "under", 5) == 0, over = strncmp(o->name, "over", 4) == 0;
    if (under && way > 0) return "an underapproximation holds for more";
    if (over && way < 0) return "an overapproximation holds for less";
    if (o->argument == SIZE_TARGET && r->value[0] > q->target[0]) return "the result is over its target size";
    if (o->argument == COUNT_TARGET && under && compare_counts(after, q->target) > 0) return "the result's count is over its target";
    if (o->argument == COUNT_TARGET && over && compare_counts(after, q->target) < 0) return "the result's count is under its target";
    if (strcmp(o->name, "reduce") == 0 && way != 0) return "the reduced diagram holds for others";
    const char *fault = wrong_words(o, q, r, before);
    if (fault) return fault;
    if (strcmp(o->name, "not") == 0) {
        uint64_t sum = 0;
        for (uint32_t i = 0; i < COUNT_WORDS; i++) {
            sum += (uint64_t)before[i] + after[i];
            if ((uint32_t)sum != (out[0] / 32 == i ? (uint32_t)1 << out[0] % 32 : 0)) return "the counts of both don't add up to all";
            sum >>= 32;
        }
    }
    return NULL;
}

/* NULL, or what is wrong with an answer's weights. */
static const char *wrong_weights(const Operation *o, const Request *q, const Reply *r) {
    if (o->output != WEIGHTS) return NULL;
    size_t n = q->words_len / 3;
    if (r->written != HOUAYLETAN_WEIGHTS(n)) return "a weight for each node";
    uint32_t count[COUNT_WORDS], none[COUNT_WORDS] = {0};
    count_of(q->words, q->words_len, count);
    for (size_t i = 0; i < r->values; i++) {
        if (r->value[i] != count[i]) return "the count";
    }
    for (size_t p = 0; p < n; p++) {
        const uint32_t *weight = q->output + HOUAYLETAN_WEIGHTS(p);
        if (compare_counts(weight, count) > 0) return "a weight over the count";
        if (p == 0 && compare_counts(weight, none)) return "node 0's weight";
        if (p != 0 && (p == 1 || p == n - 1) && compare_counts(weight, count)) return "the weight of node 1 or of the root";
    }
    return NULL;
}

static void stop(const Operation *o, const Request *q, const Reply *r, Refused expected, const char *fault) {
    printf("FAILED: %s: %s\n  expected %u at %zu, got %u at %zu; room %zu, output %zu, list", o->name, fault, expected.number, expected.place,
           r->verdict.number, r->verdict.place, q->room_len, q->output_len);
    for (size_t i = 0; i < q->list_len; i++) printf(" %u", q->list[i]);
    printf("; target");
    for (int i = 0; i < COUNT_WORDS; i++) printf(" %u", q->target[i]);
    printf("; as_is %u; words", q->as_is);
    for (size_t i = 0; i < q->words_len; i++) printf(" %u", q->words[i]);
    printf("\n");
    exit(1);
}

static void tally_wide(const Operation *o, const Request *q, const Reply *r) {
    bool count = false, target = false;
    for (int i = FIRST_WORDS; i < COUNT_WORDS; i++) count |= r->value[i] != 0, target |= q->target[i] != 0;
    many_vars += r->verdict.vars > FIRST_VARS;
    wide_counts += r->values == COUNT_WORDS && count;
    wide_targets += o->argument == COUNT_TARGET && target;
}

static void check_call(const Operation *o, const Loan *l, const Request *q, const Reply *r) {
    Refused expected = reading(words, q->words_len, q->room_len, o->output, q->output_len);
    if (!expected.number) expected = reading_argument(o, q);
    const char *fault = wrong(l, r, words, list);
    if (!fault && (r->verdict.number != expected.number || r->verdict.place != expected.place)) fault = "another verdict";
    if (!fault && !expected.number) fault = wrong_result(o, q, r);
    if (!fault && !expected.number) fault = wrong_weights(o, q, r);
    if (fault) stop(o, q, r, expected, fault);
    made++;
    refused[expected.number]++;
    if (!expected.number) tally_wide(o, q, r);
}

/* Mostly exact, often one short, sometimes longer, or anything. */
static size_t any_length(size_t exact) {
    switch (below(16)) {
    case 0: return exact ? exact - 1 : 0;
    case 1: return below(exact + 1);
    case 2: case 3: case 4: return exact + below(20);
    default: return exact;
    }
}

static void one_request(size_t guard) {
    const Operation *o = &operations[below(OPERATIONS)];
    size_t len = any_words(), n = len / 3;
    size_t list_len = o->argument == LIST ? any_list(n) : 0;
    uint32_t target[COUNT_WORDS];
    any_target(o, n, len ? words[0] : 0, target);
    /* one after the other, so that a seed means the same with every compiler */
    uint32_t as_is = to_target(o) ? any_flag() : 0;
    size_t room_len = any_length(HOUAYLETAN_ROOM(n));
    size_t output_len = any_length(output_asked(o->output, n));
    Loan l = loan(words, len, list, list_len, room_len, output_len, (uint32_t)next(), guard);
    Request q = request_of(&l, target, as_is);
    Reply r = call(o, &q);
    check_call(o, &l, &q, &r);
    give_back(&l);
}

/* ---- node files */

#define MOST_BYTES HOUAYLETAN_BYTES(HOUAYLETAN_NODES)
static uint8_t bytes[MOST_BYTES + 64];

/* Words as a file, their variables cut to two bytes. */
static size_t file_of(size_t len) {
    static const int shifts[HOUAYLETAN_BYTES_PER_NODE] = {0, 8, 0, 8, 16, 24, 0, 8, 16, 24};
    size_t n = len / 3 < HOUAYLETAN_NODES ? len / 3 : HOUAYLETAN_NODES;
    for (size_t i = 0; i < HOUAYLETAN_BYTES(n); i++) {
        size_t at = i % HOUAYLETAN_BYTES_PER_NODE;
        bytes[i] = (uint8_t)(words[3 * (i / HOUAYLETAN_BYTES_PER_NODE) + (at < 2 ? 0 : at < 6 ? 1 : 2)] >> shifts[at]);
    }
    return HOUAYLETAN_BYTES(n);
}

/* A diagram's file, whole, damaged, cut or with bytes more; any bytes; or as many as are about the limit. */
static size_t any_bytes(void) {
    size_t len = file_of(any_words());
    if (one_in(500)) len = MOST_BYTES - 12 + below(36);
    else if (one_in(6)) len = below(60);
    else if (one_in(6) && len) len -= 1 + below(len < 12 ? len : 12);
    else if (one_in(6) && len < MOST_BYTES) len += 1 + below(12);
    else if (one_in(3) && len) bytes[below(len)] ^= (uint8_t)(1u << below(8));
    if (one_in(4)) {
        for (size_t i = 0; i < len; i++) bytes[i] = (uint8_t)next();
    }
    return len;
}

/* A diagram's words, whole or damaged, any words, or as many as are about the limit; now and then with a variable that is too wide. */
static size_t any_file_words(void) {
    size_t len = one_in(500) ? 3 * (HOUAYLETAN_NODES - 1) + below(9) : any_words();
    if (one_in(4)) {
        for (size_t i = 0; i < len; i++) words[i] = (uint32_t)next() >> (i % 3 == 0 ? 16 : 0);
    }
    if (one_in(6) && len >= 3) words[3 * below(len / 3)] = UINT16_MAX + (uint32_t)below(3);
    return len;
}

static void stop_file(const FileLoan *l, const HouayletanStored *r, Refused expected, const char *fault) {
    printf("FAILED: %s: %s\n  expected %u at %zu, got %u at %zu, %zu nodes; %zu words, %zu bytes;", l->writes ? "write_as_bytes" : "read_as_bytes", fault,
           expected.number, expected.place, r->number, r->place, r->nodes, l->words.len, l->bytes.len);
    for (size_t i = 0; i < (l->writes ? l->words.len : l->bytes.len); i++) printf(" %u", l->writes ? words[i] : bytes[i]);
    printf("\n");
    exit(1);
}

/* What was read is written again, and what was written read again: the input comes back. */
static const char *wrong_way_back(const FileLoan *l, size_t n) {
    static uint32_t words_back[3 * HOUAYLETAN_NODES];
    static uint8_t bytes_back[MOST_BYTES];
    if (l->writes) {
        HouayletanStored r = houayletan_read_as_bytes(l->bytes.bytes, HOUAYLETAN_BYTES(n), words_back, 3 * n);
        return r.number || memcmp(words_back, words, 12 * n) ? "what was written doesn't read back" : NULL;
    }
    HouayletanStored r = houayletan_write_as_bytes(l->words.words, 3 * n, bytes_back, HOUAYLETAN_BYTES(n));
    return r.number || memcmp(bytes_back, bytes, HOUAYLETAN_BYTES(n)) ? "what was read doesn't come back as it was" : NULL;
}

static void check_file(const FileLoan *l, const HouayletanStored *r) {
    Refused expected = l->writes ? reading_words(words, l->words.len, l->bytes.len) : reading_bytes(l->bytes.len, l->words.len);
    const char *fault = wrong_file(l, r, l->writes ? (const void *)words : bytes);
    if (!fault && (r->number != expected.number || r->place != expected.place)) fault = "another answer";
    if (!fault && !r->number) fault = wrong_way_back(l, r->nodes);
    if (fault) stop_file(l, r, expected, fault);
    files++;
    file_refused[l->writes][expected.number]++;
}

static void one_file(size_t guard) {
    bool writes = one_in(2);
    size_t len = writes ? any_file_words() : any_bytes();
    size_t lent = any_length(writes ? HOUAYLETAN_BYTES(len / 3) : 3 * (len / HOUAYLETAN_BYTES_PER_NODE));
    uint32_t seed = (uint32_t)next();
    FileLoan l = writes ? loan_to_write(words, len, lent, seed, guard) : loan_to_read(bytes, len, lent, seed, guard);
    HouayletanStored r = call_file(&l);
    check_file(&l, &r);
    give_file_back(&l);
}

static void tell_files(void) {
    static const char *const names[] = {"read", "written"};
    printf("node files: %lu, 0 failed", files);
    for (int writes = 0; writes < 2; writes++) {
        printf("; %s %lu, refused", names[writes], file_refused[writes][0]);
        for (int i = 1; i < 64; i++) {
            if (file_refused[writes][i]) printf(" %d: %lu", i, file_refused[writes][i]);
        }
    }
    printf("\n");
}

/* ---- settings */

static unsigned long settings_made, settings_refused[3][64], settings_mended; /* by number: of the reader of version 1, today's, and the writer */

/* Mostly in its range: in half of them one field may be anything. */
static HouayletanSetting any_setting(uint32_t *version) {
    static const uint32_t numbers[] = {0, 1, 2, 3, 255, 256, 257, UINT32_MAX};
    HouayletanSetting x = {(uint32_t)below(2), (uint32_t)below(2), (uint32_t)below(2), {0}};
    size_t used = x.kind == HOUAYLETAN_TO_SIZE ? 1 : below(COUNT_WORDS + 1);
    for (size_t i = 0; i < used; i++) x.target[i] = one_in(4) ? UINT32_MAX : one_in(4) ? 0 : (uint32_t)next();
    *version = 1 + (uint32_t)below(2);
    if (*version == 1 && !one_in(8)) x.as_is = 0;
    uint32_t any = numbers[below(sizeof numbers / sizeof *numbers)];
    switch (below(12)) {
    case 0: x.direction = any; break;
    case 1: x.kind = any; break;
    case 2: x.as_is = any; break;
    case 3: x.target[below(COUNT_WORDS)] = (uint32_t)next(); break;
    case 4: *version = any; break;
    case 5: *version = (uint32_t)next(); break;
    }
    return x;
}

/* A block of any setting that has a byte for each field; whole, or with a few bytes changed, exchanged or taken away. Returns its length. */
static size_t any_block(void) {
    uint32_t version;
    HouayletanSetting x = any_setting(&version);
    block_of(bytes, version, &x);
    bool mend = one_in(2);
    size_t len = BLOCK;
    switch (below(9)) {
    case 0:
        for (size_t i = 0; i < BLOCK; i++) bytes[i] = (uint8_t)next();
        break;
    case 1: len = one_in(2) ? below(BLOCK) : BLOCK - 1 + 2 * below(2); break;
    case 2: len = BLOCK + below(40); break;
    case 3:
        for (size_t i = 1 + below(3); i; i--) bytes[below(one_in(2) ? TARGET_END + 1 : BLOCK)] ^= (uint8_t)(1u << below(8));
        break;
    case 4: {
        size_t a = below(BLOCK), b = below(BLOCK);
        uint8_t kept_byte = bytes[a];
        bytes[a] = bytes[b], bytes[b] = kept_byte;
        break;
    }
    case 5: bytes[one_in(2) ? below(4) : TARGET_END + below(SUMS_AT - TARGET_END)] = (uint8_t)next(); break;
    default: mend = false;
    }
    if (mend) seal(bytes), settings_mended++;
    return len;
}

static void stop_settings(const char *name, const char *fault, uint32_t expected, uint32_t got, size_t len) {
    printf("FAILED: %s: %s\n  expected %u, got %u; %zu bytes;", name, fault, expected, got, len);
    for (size_t i = 0; i < len; i++) printf(" %u", bytes[i]);
    printf("\n");
    exit(1);
}

/* What was read is written again in its version: the same bytes. */
static const char *wrong_settings_back(const HouayletanSettingRead *r) {
    uint8_t back[BLOCK];
    HouayletanSettingWritten w = houayletan_write_settings(r->version, r->setting, back, sizeof back);
    return w.number || memcmp(back, bytes, BLOCK) ? "what was read doesn't come back as it was" : NULL;
}

static void read_block(size_t guard) {
    size_t len = any_block();
    for (uint32_t newest = 1; newest <= HOUAYLETAN_SETTINGS_VERSION; newest++) {
        HouayletanSettingRead expected = reading_settings(bytes, len, newest);
        LentBytes l = lend_block(bytes, len, (uint32_t)next(), guard);
        HouayletanSettingRead r = call_read_settings(&l, newest);
        const char *fault = wrong_setting_read(&l, &r, bytes, &expected);
        if (!fault && !r.number) fault = wrong_settings_back(&r);
        if (fault) stop_settings(newest == 1 ? "read_settings_v1" : "read_settings", fault, expected.number, r.number, len);
        settings_refused[newest - 1][expected.number]++;
        free(l.all);
    }
}

static void write_block(size_t guard) {
    uint32_t version;
    HouayletanSetting x = any_setting(&version);
    size_t lent = one_in(4) ? below(BLOCK) : one_in(2) ? BLOCK : BLOCK - 1 + below(40);
    uint32_t number = reading_to_store(version, &x, lent);
    LentBytes l = lend_bytes(lent, (uint32_t)next(), guard);
    HouayletanSettingWritten r = houayletan_write_settings(version, x, l.bytes, lent);
    block_of(bytes, version, &x);
    const char *fault = wrong_setting_written(&l, &r, number, bytes);
    if (!fault && !number) {
        HouayletanSettingRead back = houayletan_read_settings(l.bytes, BLOCK);
        if (back.number || back.version != version || memcmp(&back.setting, &x, sizeof x)) fault = "what was written doesn't read back";
    }
    if (fault) stop_settings("write_settings", fault, number, r.number, BLOCK);
    settings_refused[2][number]++;
    free(l.all);
}

static void one_setting(size_t guard) {
    one_in(2) ? read_block(guard) : write_block(guard);
    settings_made++;
}

static void tell_settings(void) {
    static const char *const names[] = {"read by the reader of version 1", "read", "written"};
    printf("settings blocks: %lu, %lu of them with mended sums, 0 failed", settings_made, settings_mended);
    for (int i = 0; i < 3; i++) {
        printf("; %s %lu, refused", names[i], settings_refused[i][0]);
        for (int k = 1; k < 64; k++) {
            if (settings_refused[i][k]) printf(" %d: %lu", k, settings_refused[i][k]);
        }
    }
    printf("\n");
}

/* ---- two diagrams */

static uint32_t others[3 * MOST];
static unsigned long comparisons, comparison_refused[2][64], alike, tried_out; /* by number, of the first or none and of the second */

/* What stands in words goes to the others, and new words come beside them: of the same variable count mostly, and at times the same diagram
 * with a link changed. */
static void any_two(size_t *first_len, size_t *second_len) {
    size_t len = any_words();
    memcpy(others, words, 4 * len);
    *second_len = len;
    if (one_in(3)) {
        if (len >= 9 && one_in(2)) words[3 * (2 + below(len / 3 - 2)) + 1 + below(2)] = (uint32_t)below(2);
        *first_len = len;
        return;
    }
    *first_len = any_words();
    if (one_in(8) || *first_len < 3 || len < 3) return;
    uint32_t vars = words[0] > others[0] ? words[0] : others[0];
    words[0] = others[0] = vars;
    if (*first_len >= 6) words[3] = vars;
    if (len >= 6) others[3] = vars;
}

static Refused reading_two(size_t first_len, size_t second_len, size_t room_len, size_t pairs, size_t table_len, uint32_t *which) {
    Refused refused = reading(words, first_len, room_len, NO_OUTPUT, 0);
    *which = 0;
    if (refused.number) return refused;
    refused = reading(others, second_len, room_len, NO_OUTPUT, 0);
    *which = refused.number != 0;
    if (refused.number) return refused;
    if (words[0] != others[0]) return (Refused){31, 0};
    return (Refused){pairs > table_len / HOUAYLETAN_PAIR_WORDS ? 32 : 0, 0};
}

/* Every valuation in turn, where there are few. */
static const char *wrong_by_trial(const PairLoan *l, const HouayletanComparison *r) {
    uint32_t first = 0, second = 0, both = 0, smallest = UINT32_MAX, vars = r->verdict.vars;
    if (vars > 8) return NULL;
    for (uint32_t number = 0; number < (uint32_t)1 << vars; number++) {
        const uint32_t valuation[COUNT_WORDS] = {number};
        bool a = holds_for(l->first.words, l->first.len, valuation), b = holds_for(l->second.words, l->second.len, valuation);
        first += a && !b, second += b && !a, both += a && b;
        if (a != b && smallest == UINT32_MAX) smallest = number;
    }
    tried_out++;
    if (first != r->first[0] || second != r->second[0] || both != r->both[0]) return "the counts";
    return r->differ != (smallest != UINT32_MAX) || (r->differ && smallest != r->smallest[0]) ? "the smallest" : NULL;
}

static void stop_comparison(const PairLoan *l, const HouayletanComparison *r, Refused expected, uint32_t which, const char *fault) {
    printf("FAILED: compare: %s\n  expected %u at %zu of %u, got %u at %zu of %u; room %zu, table %zu, words", fault, expected.number, expected.place, which,
           r->verdict.number, r->verdict.place, r->which, l->room.len, l->table.len);
    for (size_t i = 0; i < l->first.len; i++) printf(" %u", words[i]);
    printf("; and");
    for (size_t i = 0; i < l->second.len; i++) printf(" %u", others[i]);
    printf("\n");
    exit(1);
}

static void check_comparison(const PairLoan *l, const HouayletanComparison *r, size_t pairs) {
    uint32_t which;
    Refused expected = reading_two(l->first.len, l->second.len, l->room.len, pairs, l->table.len, &which);
    const char *fault = wrong_comparison(l, r, words, others);
    if (!fault && (r->verdict.number != expected.number || r->verdict.place != expected.place || r->which != which)) fault = "another verdict";
    if (!fault && !expected.number && r->verdict.nodes != pairs) fault = "the pairs";
    if (!fault && !expected.number) fault = wrong_by_trial(l, r);
    if (fault) stop_comparison(l, r, expected, which, fault);
    comparisons++;
    comparison_refused[which][expected.number]++;
    alike += !expected.number && !r->differ;
}

/* How many pairs the two reach, where they are diagrams of one variable count. */
static size_t pairs_of_two(size_t first_len, size_t second_len) {
    bool diagrams = !reading(words, first_len, SIZE_MAX, NO_OUTPUT, 0).number && !reading(others, second_len, SIZE_MAX, NO_OUTPUT, 0).number;
    return diagrams && words[0] == others[0] ? reading_pairs(words, first_len, others, second_len, PAIRS_COUNTED) : below(20);
}

static void one_comparison(size_t guard) {
    size_t first_len, second_len;
    any_two(&first_len, &second_len);
    size_t pairs = pairs_of_two(first_len, second_len), larger = (first_len > second_len ? first_len : second_len) / 3;
    size_t room_len = any_length(HOUAYLETAN_ROOM(larger));
    /* more than are counted out are refused: the table is too short for them */
    size_t table_len = any_length(HOUAYLETAN_TABLE(pairs > PAIRS_COUNTED ? below(PAIRS_COUNTED) : pairs));
    PairLoan l = loan_of_pair(words, first_len, others, second_len, room_len, table_len, (uint32_t)next(), guard);
    HouayletanComparison r = call_compare(&l);
    check_comparison(&l, &r, pairs);
    give_pair_back(&l);
}

static void tell_comparisons(void) {
    static const char *const names[] = {"the first or none", "the second"};
    printf("comparisons: %lu, 0 failed; answered %lu, %lu of them where there is no difference, %lu by every valuation", comparisons,
           comparison_refused[0][0], alike, tried_out);
    for (int which = 0; which < 2; which++) {
        printf("; refused of %s", names[which]);
        for (int i = 1; i < 64; i++) {
            if (comparison_refused[which][i]) printf(" %d: %lu", i, comparison_refused[which][i]);
        }
    }
    printf("\n");
}

/* ---- pools */

static unsigned long pools, pool_made, pool_refused[POOL_CALLS][64]; /* by call and by number */
static unsigned long pools_scattered, pools_spoilt, pools_still, rows_upset, rows_still;
static size_t pool_nodes;

/* A pool, and what it holds by the calls alone. Where its nodes were put elsewhere they stand in order again after the next accepted
 * add or drop. */
typedef struct {
    Pool lent;
    Held held;
    bool in_order;
} Site;

static void stop_pool(const Pool *p, const PoolRequest *q, const PoolReply *r, HouayletanVerdict expected, const char *fault) {
    printf("FAILED: %s: %s\n  expected %u at %zu, %zu nodes, got %u at %zu, %zu nodes; slot %zu, room %zu, output %zu; table", pool_calls[q->call], fault,
           expected.number, expected.place, expected.nodes, r->verdict.number, r->verdict.place, r->verdict.nodes, q->slot, q->room_len, q->output_len);
    for (size_t i = 0; i < p->table.len; i++) printf(" %u", p->table.words[i]);
    printf("; slots");
    for (size_t i = 0; i < p->slots.len; i++) printf(" %u", p->slots.words[i]);
    printf("; row");
    for (size_t i = 0; i < p->row.len; i++) printf(" %u", p->row.words[i]);
    printf("; words");
    for (size_t i = 0; i < q->words_len; i++) printf(" %u", q->words[i]);
    printf("\n");
    exit(1);
}

/* What is read of words that are added: their own refusal, and their reduced array. */
static HouayletanVerdict own_of(const PoolRequest *q, const uint32_t **array, size_t *len) {
    if (q->call != ADD) return (HouayletanVerdict){0, 0, 0, 0};
    Refused own = reading(q->words, q->words_len, q->room_len, NO_OUTPUT, 0);
    if (!own.number) *array = reading_reduce(q->words, q->words_len, len);
    return (HouayletanVerdict){own.number, own.place, 0, 0};
}

/* Whether a call may change table and slots. */
static bool moves(const PoolRequest *q) { return q->call == ADD || q->call == DROP; }

static void tally_pool(const PoolRequest *q, HouayletanVerdict said) {
    pool_made++;
    pool_refused[q->call][said.number]++;
    if (moves(q) && said.nodes > pool_nodes) pool_nodes = said.nodes;
}

/* An answer beside what the site holds; was is the pool before. */
static void check_pool(Site *s, const Pool *was, const PoolRequest *q, const PoolReply *r) {
    const uint32_t *array = NULL;
    size_t len = 0;
    HouayletanVerdict own = own_of(q, &array, &len), expected = pool_says(&s->held, q, own, array, len);
    const char *fault = wrong_pool_call(&s->lent, was, q, r);
    if (!expected.number && moves(q)) s->in_order = true;
    if (!fault && !same_verdict(r->verdict, expected)) fault = "another verdict";
    if (!fault && s->in_order) fault = wrong_pool_answer(&s->lent, &s->held, q, r, expected);
    bool is_read = q->call == READ && !expected.number;
    if (!fault && is_read && memcmp(r->output.words, s->held.array[q->slot], 4 * s->held.len[q->slot])) fault = "the array that was read";
    if (fault) stop_pool(was, q, r, expected, fault);
    tally_pool(q, expected);
}

static void call_site(Site *s, const PoolRequest *q) {
    Pool was = copy_of_pool(&s->lent);
    PoolReply r = call_pool(&s->lent, q);
    check_pool(s, &was, q, &r);
    give_reply_back(&r);
    give_pool_back(&was);
}

/* The nodes at any places, and at times a few places more. */
static void scatter(Site *s) {
    static uint32_t table[3 * HOUAYLETAN_NODES], slots[HOUAYLETAN_SLOTS], place[HOUAYLETAN_NODES];
    const uint32_t *from = s->lent.table.words;
    size_t old = s->held.places, more = below(3), places = old + more < HOUAYLETAN_NODES ? old + more : HOUAYLETAN_NODES;
    memset(table, 0, sizeof table);
    for (size_t p = 0; p < places; p++) place[p] = (uint32_t)p;
    for (size_t p = places; p-- > 3;) {
        size_t q = 2 + below(p - 1);
        uint32_t swap = place[p];
        place[p] = place[q], place[q] = swap;
    }
    for (size_t p = 0; p < old; p++) {
        if (is_free_place(from, p)) continue;
        uint32_t *to = table + 3 * place[p];
        to[0] = from[3 * p], to[1] = place[from[3 * p + 1]], to[2] = place[from[3 * p + 2]];
    }
    for (size_t k = 0; k < HOUAYLETAN_SLOTS; k++) slots[k] = s->lent.slots.words[k] ? place[s->lent.slots.words[k] - 1] + 1 : 0;
    Pool was = s->lent; /* its row stays */
    s->lent = lend_all(table, 3 * places, slots, HOUAYLETAN_SLOTS, was.row.words, was.row.len, was.table.guard);
    give_pool_back(&was);
    s->held.places = places, s->in_order = false, pools_scattered++;
}

/* A call to a pool that is not the site's, and what it says before all else; or where it says nothing, and the row is the pool's, 33. The row may
 * be worked out instead, where it is long enough. */
static void call_other(Pool *p, const PoolRequest *like) {
    uint32_t first = stands(p);
    PoolRequest q = *like;
    if (first != 46 && one_in(3)) q.call = SUMMARIZE;
    if (first != 46 && q.call == READ) q.call = DROP;
    if (!first && moves(&q)) q.call = DROP, q.slot = HOUAYLETAN_SLOTS + below(2);
    Pool was = copy_of_pool(p);
    PoolReply r = call_pool(p, &q);
    HouayletanVerdict expected = {first ? first : 33, 0, 0, 0};
    if (q.call == SUMMARIZE && (first == 0 || first == 47)) expected = (HouayletanVerdict){0, 0, p->table.len / 3, p->table.words[0]};
    const char *fault = wrong_pool_call(p, &was, &q, &r);
    if (!fault && !same_verdict(r.verdict, expected)) fault = "another verdict";
    if (fault) stop_pool(&was, &q, &r, expected, fault);
    tally_pool(&q, expected);
    give_reply_back(&r);
    give_pool_back(&was);
}

/* A word of the row becomes another, of the pool's records or behind them; or its length. */
static void upset(const Site *s, const PoolRequest *like) {
    static uint32_t row[2 * (VARS + 8)];
    size_t len = s->lent.row.len, own = 2 * (size_t)s->held.vars;
    memcpy(row, s->lent.row.words, 4 * len);
    if (one_in(4)) {
        len = one_in(2) ? 2 * below(own / 2 + 1) : own;
    } else if (one_in(4)) {
        row[len] = (uint32_t)next(), row[len + 1] = (uint32_t)next(), len += 2;
    } else {
        size_t at = own && !one_in(6) ? (one_in(4) ? own - 1 - below(2) : one_in(4) ? below(2) : below(own)) : own + below(len - own);
        const uint32_t others[] = {0, 1, row[at] + 1, row[at] - 1, row[at ^ 1], UINT32_MAX};
        row[at] = others[below(sizeof others / 4)];
    }
    Pool p = lend_all(s->lent.table.words, s->lent.table.len, s->lent.slots.words, s->lent.slots.len, row, len, s->lent.table.guard);
    if (stands(&p)) rows_upset++; else rows_still++;
    call_other(&p, like);
    give_pool_back(&p);
}

/* A word or two become others, or a length another: 46, whatever the call, or where it is a pool still, 47, or 33 where the row is too. */
static void spoil(const Site *s, const PoolRequest *like) {
    static uint32_t table[3 * HOUAYLETAN_NODES + 8], slots[HOUAYLETAN_SLOTS + 2];
    size_t table_len = s->lent.table.len, slots_len = HOUAYLETAN_SLOTS;
    uint32_t places = (uint32_t)table_len / 3, v = s->held.vars;
    memset(table, 0, sizeof table), memset(slots, 0, sizeof slots);
    memcpy(table, s->lent.table.words, 4 * table_len), memcpy(slots, s->lent.slots.words, sizeof slots - 8);
    const uint32_t others[] = {0, 1, 2, (uint32_t)below(places), (uint32_t)below(places), places, v, v + 1, v ? v - 1 : 0, VARS + 1, UINT32_MAX};
    if (one_in(12)) table_len = one_in(2) ? below(table_len) : table_len + 1 + below(4);
    if (one_in(24)) slots_len = one_in(2) ? below(slots_len) : slots_len + 1;
    for (size_t times = 1 + below(2); times; times--) {
        uint32_t *word = one_in(3) ? slots + below(HOUAYLETAN_SLOTS) : table + below(one_in(4) ? 6 : 3 * (size_t)places);
        *word = others[below(sizeof others / 4)];
    }
    if (one_in(6)) table[0] = table[3] = others[6 + below(5)];
    Pool p = lend_all(table, table_len, slots, slots_len, s->lent.row.words, s->lent.row.len, s->lent.table.guard);
    if (well_formed(table, table_len, slots, slots_len)) pools_still++; else pools_spoilt++;
    call_other(&p, like);
    give_pool_back(&p);
}

/* Words for a pool of so many places, mostly of its variable count. */
static size_t any_addition(uint32_t vars, size_t places) {
    size_t len = 3;
    words[0] = vars + 1;
    for (int tries = 0; tries < 8 && len >= 3 && words[0] > vars; tries++) {
        bool large = places > 1000 && one_in(2);
        len = large ? accepted(places / 8 + below(places - places / 8)) : any_words();
    }
    if (len >= 3 && words[0] <= vars && !one_in(16)) {
        words[0] = vars;
        if (len >= 6) words[3] = vars;
    }
    return len;
}

static PoolRequest any_call(const Site *s) {
    static const size_t few[] = {0, 1, 2, 9, 40, 63};
    size_t what = below(8), slot = one_in(3) ? below(HOUAYLETAN_SLOTS) : few[below(6)];
    if (one_in(30)) slot = one_in(2) ? HOUAYLETAN_SLOTS + below(3) : (size_t)next() | (size_t)1 << 32;
    bool live = slot < HOUAYLETAN_SLOTS && s->held.array[slot];
    PoolCall call = what < 5 ? (live && !one_in(8) ? (one_in(2) ? DROP : READ) : ADD) : (live || one_in(8) ? (what == 5 ? DROP : READ) : ADD);
    if (one_in(16)) call = SUMMARIZE;
    PoolRequest q = {call, slot, words, 0, 0, 0, (uint32_t)next()};
    if (call == ADD) q.words_len = any_addition(s->held.vars, s->held.places), q.room_len = HOUAYLETAN_ROOM(q.words_len / 3);
    if (call == READ) q.room_len = HOUAYLETAN_ROOM(s->held.places), q.output_len = live ? s->held.len[slot] : below(10);
    if (q.room_len && one_in(6)) q.room_len = any_length(q.room_len);
    if (call == READ && one_in(4)) q.output_len = any_length(q.output_len);
    return q;
}

static void one_pool(size_t guard) {
    size_t kind = below(100), places = kind < 50 ? 2 + below(14) : kind < 90 ? 10 + below(120) : kind < 98 ? 100 + below(900) : HOUAYLETAN_NODES - below(2);
    uint32_t vars = (uint32_t)(one_in(3) ? VARS : below(one_in(2) ? 10 : VARS + 1));
    Site s = {.lent = lend_empty_pool(places, vars, guard), .held = {.vars = vars, .places = places}, .in_order = true};
    for (size_t calls = 10 + below(places < 1000 ? 60 : 10); calls; calls--) {
        if (one_in(10)) scatter(&s);
        PoolRequest q = any_call(&s);
        if (one_in(5)) spoil(&s, &q); else if (one_in(6)) upset(&s, &q); else call_site(&s, &q);
    }
    pools++;
    let_all_go(&s.held);
    give_pool_back(&s.lent);
}

static void tell_pools(void) {
    printf("calls to pools: %lu, 0 failed, to %lu pools; nodes put elsewhere %lu times, words changed to no pool %lu times, to a pool still %lu times; "
           "the row changed to another %lu times, behind its records %lu times; %zu nodes at most", pool_made, pools, pools_scattered, pools_spoilt,
           pools_still, rows_upset, rows_still, pool_nodes);
    for (size_t call = 0; call < POOL_CALLS; call++) {
        printf("; %s answered %lu, refused", pool_calls[call], pool_refused[call][0]);
        for (int i = 1; i < 64; i++) {
            if (pool_refused[call][i]) printf(" %d: %lu", i, pool_refused[call][i]);
        }
    }
    printf("\n");
}

/* ---- the longest paths */

/* A level for each variable, columns and a tree above them: as many nodes as are taken. Each column goes to itself and to the next one. Order 0:
 * children first; 1: children last, the root apart. */
static size_t ladder(int order, uint32_t skew) {
    size_t levels = VARS, n = HOUAYLETAN_NODES, count = n - 2, start = 0;
    static uint32_t var[HOUAYLETAN_NODES], low[HOUAYLETAN_NODES], high[HOUAYLETAN_NODES];
    for (size_t x = 0, width = 1; x < levels; x++) {
        size_t left = count - start - width, after = levels - x - 1;
        size_t wider = x + 1 < levels ? (left / after < 2 * width ? left / after : 2 * width) : 0;
        if (wider < 1 && after) wider = 1;
        for (size_t j = 0; j < width; j++) {
            var[start + j] = (uint32_t)x;
            low[start + j] = after ? (uint32_t)(2 + start + width + (wider > width ? (2 * j) % wider : j % wider)) : (uint32_t)(j + skew) % 2;
            high[start + j] = after ? (uint32_t)(2 + start + width + (wider > width ? (2 * j + 1) % wider : (j + 1) % wider)) : 1;
        }
        start += width;
        width = wider;
    }
    n = start + 2;
    words[0] = words[3] = VARS, words[1] = words[2] = 0, words[4] = words[5] = 1;
    for (size_t i = 0; i < start; i++) {
        size_t at = order == 0 ? n - 1 - i : i == 0 ? n - 1 : i + 1;
        uint32_t links[2] = {low[i], high[i]};
        words[3 * at] = var[i];
        for (int side = 0; side < 2; side++) {
            uint32_t to = links[side];
            words[3 * at + 1 + (size_t)side] = to < 2 ? to : order == 0 ? (uint32_t)(n - 1 - (to - 2)) : to == 2 ? (uint32_t)n - 1 : to - 1;
        }
    }
    return 3 * n;
}

/* The most nodes, each linked to the next, all at one variable: refused, after the longest search there is. */
static size_t one_long_path(void) {
    words[0] = words[3] = VARS, words[1] = words[2] = 0, words[4] = words[5] = 1;
    const uint32_t n = HOUAYLETAN_NODES;
    for (uint32_t p = 2; p < n; p++) words[3 * p] = 7, words[3 * p + 1] = p - 1, words[3 * p + 2] = p == 2 ? n - 1 : p - 1;
    return 3 * n;
}

/* A target that the ladders meet, so that they are reduced as they are given, or one that they are cut to. */
static void ladder_target(const Operation *o, bool met, uint32_t *target) {
    memset(target, 0, COUNT_WORDS * sizeof target[0]);
    target[0] = 1;
    if (o->argument == SIZE_TARGET) target[0] = met ? HOUAYLETAN_NODES : 300;
    if (o->argument == COUNT_TARGET && o->name[0] == 'u') {
        if (met) target[VARS / 32] = 1u << VARS % 32; else target[COUNT_WORDS - 1] = 1u << 27;
    }
    /* from above seven eighths of all: the ladders hold for fewer */
    if (o->argument == COUNT_TARGET && o->name[0] == 'o' && !met) target[VARS / 32] = 7u << (VARS % 32 - 3);
}

#define STACK (256 * 1024)
#define PAGE 4096
static unsigned char *stack;
static const Operation *deep_operation;
static Request *deep_request;
static Reply deep_reply;

static void *on_own_stack(void *unused) {
    deep_reply = call(deep_operation, deep_request);
    return unused;
}

static FileLoan deep_file;
static HouayletanStored deep_stored;

static void *file_on_own_stack(void *unused) {
    deep_stored = call_file(&deep_file);
    return unused;
}

static PairLoan deep_pair;
static HouayletanComparison deep_comparison;

static void *comparison_on_own_stack(void *unused) {
    deep_comparison = call_compare(&deep_pair);
    return unused;
}

static Site deep_site;
static PoolRequest deep_call;
static PoolReply deep_answer;

static void *pool_on_own_stack(void *unused) {
    deep_answer = call_pool(&deep_site.lent, &deep_call);
    return unused;
}

static LentBytes deep_block;
static HouayletanSetting deep_setting;
static HouayletanSettingRead deep_read;
static HouayletanSettingWritten deep_written;
static void *read_on_own_stack(void *unused) {
    deep_read = call_read_settings(&deep_block, HOUAYLETAN_SETTINGS_VERSION);
    return unused;
}
static void *write_on_own_stack(void *unused) {
    deep_written = houayletan_write_settings(HOUAYLETAN_SETTINGS_VERSION, deep_setting, deep_block.bytes, deep_block.len);
    return unused;
}

static size_t stack_used(void (*start)(void)) {
    memset(stack, 0xC3, STACK);
    start();
    size_t untouched = 0;
    while (untouched < STACK && stack[untouched] == 0xC3) untouched++;
    return STACK - untouched;
}

static void *nothing(void *unused) { return unused; }
static void *(*thread_body)(void *) = nothing;

static void start_thread(void) {
    pthread_attr_t attr;
    pthread_t thread;
    if (pthread_attr_init(&attr) || pthread_attr_setstack(&attr, stack, STACK) || pthread_create(&thread, &attr, thread_body, NULL) || pthread_join(thread, NULL)) {
        printf("FAILED: no thread\n");
        exit(2);
    }
}

/* The most places and levels: the ladder is added where there is nothing; true after it and before it; it is read; true is dropped beside it; it
 * is added to another slot, which is refused for room where it is another ladder; and the row is worked out. */
static void deep_pools(size_t idle) {
    static const struct {
        const char *what;
        PoolCall call;
        size_t slot;
        int ladder; /* -1: true */
    } steps[] = {
        {"pool_add, to an empty pool", ADD, 40, 0}, {"pool_add, of true behind it", ADD, 50, -1}, {"pool_add, of true before it", ADD, 3, -1},
        {"pool_add, of the same", ADD, 41, 0},      {"pool_add, for which there is no room", ADD, 42, 2}, {"pool_read", READ, 40, 0},
        {"pool_drop, of true", DROP, 50, 0},        {"pool_drop, of one of two", DROP, 40, 0}, {"pool_summarize", SUMMARIZE, 0, 0},
        {"pool_drop, of the last", DROP, 41, 0},
    };
    deep_site = (Site){.lent = lend_empty_pool(HOUAYLETAN_NODES, VARS, 16), .held = {.vars = VARS, .places = HOUAYLETAN_NODES}, .in_order = true};
    thread_body = pool_on_own_stack;
    for (size_t i = 0; i < sizeof steps / sizeof *steps; i++) {
        size_t len = ladder(0, steps[i].ladder < 0 ? 0 : (uint32_t)steps[i].ladder / 2);
        size_t given = steps[i].call != ADD ? 0 : steps[i].ladder < 0 ? 6 : len;
        deep_call = (PoolRequest){steps[i].call, steps[i].slot, words, given, HOUAYLETAN_ROOM(HOUAYLETAN_NODES), 3 * HOUAYLETAN_NODES, 77};
        Pool was = copy_of_pool(&deep_site.lent);
        size_t used = stack_used(start_thread);
        check_pool(&deep_site, &was, &deep_call, &deep_answer);
        printf("  %-40s %zu (number %u, %zu nodes)\n", steps[i].what, used > idle ? used - idle : 0, deep_answer.verdict.number, deep_answer.verdict.nodes);
        give_reply_back(&deep_answer);
        give_pool_back(&was);
    }
    let_all_go(&deep_site.held);
    give_pool_back(&deep_site.lent);
}

/* A block of the largest count, written and read. */
static void deep_settings(size_t idle) {
    deep_setting = (HouayletanSetting){HOUAYLETAN_OVER, HOUAYLETAN_TO_COUNT, 1, {0}};
    memset(deep_setting.target, 255, sizeof deep_setting.target);
    block_of(bytes, HOUAYLETAN_SETTINGS_VERSION, &deep_setting);
    HouayletanSettingRead expected = reading_settings(bytes, BLOCK, HOUAYLETAN_SETTINGS_VERSION);
    deep_block = lend_bytes(BLOCK, 77, 16);
    thread_body = write_on_own_stack;
    size_t used = stack_used(start_thread);
    const char *fault = wrong_setting_written(&deep_block, &deep_written, 0, bytes);
    if (fault) stop_settings("write_settings", fault, 0, deep_written.number, BLOCK);
    printf("  %-32s %zu\n", "write_settings", used > idle ? used - idle : 0);
    thread_body = read_on_own_stack;
    used = stack_used(start_thread);
    fault = wrong_setting_read(&deep_block, &deep_read, bytes, &expected);
    if (fault) stop_settings("read_settings", fault, expected.number, deep_read.number, BLOCK);
    printf("  %-32s %zu\n", "read_settings", used > idle ? used - idle : 0);
    free(deep_block.all);
    settings_made += 2;
}

static int deep(void) {
    if (posix_memalign((void **)&stack, PAGE, STACK)) return 2;
    thread_body = nothing;
    size_t idle = stack_used(start_thread);
    printf("%d levels, %zu nodes, on a stack of %d KiB; bytes used beyond the %zu of an idle thread:\n", VARS, ladder(0, 0) / 3, STACK / 1024, idle);
    thread_body = on_own_stack;
    for (size_t i = 0; i < OPERATIONS; i++) {
        const Operation *o = &operations[i];
        size_t most = 0;
        for (int turn = 0; turn < (to_target(o) ? 10 : 5); turn++) {
            int kind = turn % 5;
            size_t len = kind < 4 ? ladder(kind % 2, (uint32_t)kind / 2) : one_long_path(), n = len / 3;
            if (kind < 4 && reading(words, len, SIZE_MAX, NO_OUTPUT, 0).number) {
                printf("FAILED: the ladder is no diagram: %u at %zu\n", reading(words, len, SIZE_MAX, NO_OUTPUT, 0).number, reading(words, len, SIZE_MAX, NO_OUTPUT, 0).place);
                return 1;
            }
            uint32_t target[COUNT_WORDS];
            ladder_target(o, turn >= 5, target);
            list[0] = (uint32_t)n / 2, list[1] = (uint32_t)n / 3;
            Loan l = loan(words, len, list, o->argument == LIST ? 2 : 0, HOUAYLETAN_ROOM(n), output_asked(o->output, n), 77, 16);
            Request q = request_of(&l, target, 0);
            deep_operation = o, deep_request = &q;
            size_t used = stack_used(start_thread);
            most = used > most ? used : most;
            check_call(o, &l, &q, &deep_reply);
            give_back(&l);
        }
        printf("  %-32s %zu\n", o->name, most > idle ? most - idle : 0);
    }
    thread_body = file_on_own_stack;
    for (int writes = 0; writes < 2; writes++) {
        size_t len = ladder(0, 0), file_len = file_of(len);
        deep_file = writes ? loan_to_write(words, len, file_len, 77, 16) : loan_to_read(bytes, file_len, len, 77, 16);
        size_t used = stack_used(start_thread);
        check_file(&deep_file, &deep_stored);
        give_file_back(&deep_file);
        printf("  %-32s %zu\n", writes ? "write_as_bytes" : "read_as_bytes", used > idle ? used - idle : 0);
    }
    thread_body = comparison_on_own_stack;
    for (int turn = 0; turn < 4; turn++) {
        size_t second_len = ladder(turn % 2, 0);
        memcpy(others, words, 4 * second_len);
        size_t len = ladder(0, (uint32_t)turn / 2), pairs = pairs_of_two(len, second_len);
        deep_pair = loan_of_pair(words, len, others, second_len, HOUAYLETAN_ROOM(HOUAYLETAN_NODES), HOUAYLETAN_TABLE(pairs), 77, 16);
        size_t used = stack_used(start_thread);
        check_comparison(&deep_pair, &deep_comparison, pairs);
        give_pair_back(&deep_pair);
        printf("  %-32s %zu (%zu pairs)\n", "compare", used > idle ? used - idle : 0, pairs);
    }
    deep_pools(idle);
    deep_settings(idle);
    printf("stress deep: %lu calls, %lu of them to a target that is met, 0 failed; node files: %lu, 0 failed; comparisons: %lu, 0 failed; calls to pools: %lu, 0 failed; settings blocks: %lu, 0 failed\n", made, reduced,
           files, comparisons, pool_made, settings_made);
    return 0;
}

int main(int argc, char **argv) {
    if (argc == 2 && strcmp(argv[1], "deep") == 0) return deep();
    if (argc < 3) {
        fprintf(stderr, "usage: stress SEED REQUESTS [GUARD] | stress deep\n");
        return 2;
    }
    state = strtoull(argv[1], NULL, 10);
    unsigned long requests = strtoul(argv[2], NULL, 10);
    size_t guard = argc > 3 ? strtoul(argv[3], NULL, 10) : 16;
    while (made < requests) one_request(guard);
    while (files < requests / 4) one_file(guard);
    while (comparisons < requests / 4) one_comparison(guard);
    while (pool_made < requests / 4) one_pool(guard);
    while (settings_made < requests / 4) one_setting(guard);
    printf("targets that the array meets: %lu with as_is; %lu without, %lu of these to other words\n", kept, reduced, reworded);
    printf("answered with more than %d variables: %lu; of 2^%d or more: %lu counts, %lu targets\n", FIRST_VARS, many_vars, 32 * FIRST_WORDS,
           wide_counts, wide_targets);
    printf("stress: seed %s, %zu operations, %lu requests, 0 failed; accepted %lu, refused", argv[1], OPERATIONS, made, refused[0]);
    for (int i = 1; i < 20; i++) {
        if (refused[i]) printf(" %d: %lu", i, refused[i]);
    }
    printf("\n");
    tell_files();
    tell_comparisons();
    tell_pools();
    tell_settings();
    return 0;
}
