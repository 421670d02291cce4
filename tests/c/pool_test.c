/* A pool as a C program sees it: the worked example of docs/POOL.md, each refusal before the next, lengths exact and one short, long rows of
 * calls beside what the pool holds, every word of small pools and of their rows changed, nodes in any order, and the most places and variables.
 * Prints what fails; the last line has the counts. */
#include "pooling.h"

static int passed, failed;

static void expect(bool right, const char *what, const char *operation) {
    if (right) {
        passed++;
    } else {
        failed++;
        printf("FAILED: %s: %s\n", operation, what);
    }
}

#define LEN(a) (sizeof(a) / sizeof((a)[0]))
#define VARS HOUAYLETAN_VARS
#define SLOTS HOUAYLETAN_SLOTS
#define MOST (HOUAYLETAN_NODES + 2)

/* D: x2, or x0 and x1. */
static const uint32_t D[] = {3, 0, 0, 3, 1, 1, 2, 0, 1, 1, 2, 1, 0, 2, 3};
static const uint32_t X0_AND_X1[] = {3, 0, 0, 3, 1, 1, 1, 0, 1, 0, 0, 2};
static const uint32_t X2[] = {3, 0, 0, 3, 1, 1, 2, 0, 1};
static const uint32_t TRUE3[] = {3, 0, 0, 3, 1, 1};

static uint32_t spare[HOUAYLETAN_ROOM(MOST)], array[3 * HOUAYLETAN_NODES];

static PoolRequest adding(size_t slot, const uint32_t *words, size_t len) {
    return (PoolRequest){ADD, slot, words, len, HOUAYLETAN_ROOM(len / 3), 0, (uint32_t)slot + 9};
}

static PoolRequest dropping(size_t slot) { return (PoolRequest){DROP, slot, NULL, 0, 0, 0, 9}; }

static PoolRequest summarizing(void) { return (PoolRequest){SUMMARIZE, 0, NULL, 0, 0, 0, 9}; }

static PoolRequest reading(size_t slot, size_t room_len, size_t output_len) { return (PoolRequest){READ, slot, NULL, 0, room_len, output_len, 9}; }

/* A call with guards all around: what it must leave alone, and its verdict. The reply is to be given back. */
static PoolReply makes(Pool *p, const PoolRequest *q) {
    Pool was = copy_of_pool(p);
    PoolReply r = call_pool(p, q);
    const char *fault = wrong_pool_call(p, &was, q, &r);
    expect(!fault, fault, pool_calls[q->call]);
    give_pool_back(&was);
    return r;
}

/* The same where only the number is looked at. */
static void says(Pool *p, PoolRequest q, uint32_t number, size_t place) {
    PoolReply r = makes(p, &q);
    expect(r.verdict.number == number && r.verdict.place == place, "number and place", pool_calls[q.call]);
    if (r.verdict.number != number) printf("  got %u at %zu, not %u at %zu\n", r.verdict.number, r.verdict.place, number, place);
    give_reply_back(&r);
}

/* The same beside what the pool holds: verdict, and every word of table, slots, row and output. */
static void answers(Pool *p, Held *h, PoolRequest q) {
    HouayletanVerdict own = {0, 0, 0, 0};
    size_t len = 0;
    if (q.call == ADD) {
        own = houayletan_validate(q.words, q.words_len, spare, q.room_len < LEN(spare) ? q.room_len : LEN(spare));
        if (!own.number) len = 3 * houayletan_reduce(q.words, q.words_len, spare, LEN(spare), array, LEN(array)).nodes;
    }
    PoolReply r = makes(p, &q);
    HouayletanVerdict expected = pool_says(h, &q, own, array, len);
    const char *fault = wrong_pool_answer(p, h, &q, &r, expected);
    expect(!fault, fault, pool_calls[q.call]);
    if (fault) printf("  slot %zu, got %u, not %u\n", q.slot, r.verdict.number, expected.number);
    give_reply_back(&r);
}

/* Each live slot, and some that are not there. */
static void read_all(Pool *p, Held *h) {
    for (size_t k = 0; k < SLOTS + 1; k++) {
        if (k < SLOTS && !h->array[k] && k % 16) continue;
        answers(p, h, reading(k, HOUAYLETAN_ROOM(h->places), k < SLOTS ? h->len[k] : 0));
    }
}

/* ---- by hand */

/* The records of three variables. */
static void expect_row(const Pool *p, const uint32_t *words, const char *what) {
    expect(memcmp(p->row.words, words, 6 * sizeof words[0]) == 0, what, "the row");
}

static void worked_example(void) {
    static const uint32_t with_first[] = {3, 0, 0, 3, 1, 1, 1, 0, 1, 0, 0, 2, 0, 0, 0, 0, 0, 0, 0, 0, 0};
    static const uint32_t with_both[] = {3, 0, 0, 3, 1, 1, 2, 0, 1, 1, 2, 1, 0, 2, 3, 1, 0, 1, 0, 0, 5};
    static const uint32_t without[] = {3, 0, 0, 3, 1, 1, 2, 0, 1, 1, 2, 1, 0, 2, 3, 0, 0, 0, 0, 0, 0};
    Pool p = lend_empty_pool(7, 3, 16);
    expect_row(&p, (uint32_t[]){0, 0, 0, 0, 0, 0}, "an empty pool");
    says(&p, adding(5, X0_AND_X1, LEN(X0_AND_X1)), 0, 0);
    expect(memcmp(p.table.words, with_first, sizeof with_first) == 0 && p.slots.words[5] == 4, "the first condition", "pool_add");
    expect_row(&p, (uint32_t[]){1, 1, 1, 1, 0, 0}, "the first condition");
    says(&p, adding(2, D, LEN(D)), 0, 0);
    expect(memcmp(p.table.words, with_both, sizeof with_both) == 0 && p.slots.words[2] == 5 && p.slots.words[5] == 7, "both conditions", "pool_add");
    expect_row(&p, (uint32_t[]){2, 2, 2, 2, 1, 1}, "both conditions");
    says(&p, adding(0, X2, LEN(X2)), 0, 0);
    expect(memcmp(p.table.words, with_both, sizeof with_both) == 0 && p.slots.words[0] == 3, "a part that is there", "pool_add");
    expect_row(&p, (uint32_t[]){2, 2, 2, 2, 1, 2}, "a part that is there");
    says(&p, dropping(5), 0, 0);
    expect(memcmp(p.table.words, without, sizeof without) == 0 && p.slots.words[5] == 0, "what is left", "pool_drop");
    expect_row(&p, (uint32_t[]){1, 1, 1, 1, 1, 2}, "what is left");
    PoolRequest q = reading(2, HOUAYLETAN_ROOM(7), LEN(D));
    PoolReply r = makes(&p, &q);
    expect(r.verdict.nodes == 5 && memcmp(r.output.words, D, sizeof D) == 0, "D", "pool_read");
    give_reply_back(&r);
    give_pool_back(&p);
}

/* What is amiss before the diagram is looked at. */
enum { POOL_SPOILT = 1, ROW_SHORT = 2, ROW_WRONG = 4, ALL_AMISS = 7 };

/* The diagram's own refusals, and the slots and pools in which each is asked for, with some of 46, 37 and 47 before them. */
static void refusals(int amiss) {
    static const struct {
        size_t len;
        uint32_t words[12], number;
        size_t place;
    } own[] = {
        {0, {0}, 1, 0},
        {4, {1, 0, 0, 1}, 2, 0},
        {6, {3, 0, 0, 3, 1, 0}, 6, 1},
        {3, {VARS + 1, 0, 0}, 7, 0},
        {9, {3, 0, 0, 3, 1, 1, 3, 0, 1}, 8, 2},
        {9, {3, 0, 0, 3, 1, 1, 0, 3, 1}, 9, 2},
        {9, {3, 0, 0, 3, 1, 1, 0, 0, 3}, 10, 2},
        {9, {3, 0, 0, 3, 1, 1, 0, 2, 1}, 11, 2},
        {9, {3, 0, 0, 3, 1, 1, 0, 1, 2}, 17, 2},
        {12, {3, 0, 0, 3, 1, 1, 0, 0, 1, 0, 0, 1}, 12, 2},
    };
    static const uint32_t X0_OF_2[] = {2, 0, 0, 2, 1, 1, 0, 0, 1};
    static const size_t slots[] = {0, 7, SLOTS - 1, SLOTS, UINT32_MAX, (size_t)1 << 32, ((size_t)1 << 32) + 7, SIZE_MAX};
    static uint32_t many[3 * (HOUAYLETAN_NODES + 1)];
    memcpy(many, TRUE3, sizeof TRUE3);
    Pool p = lend_empty_pool(4, 3, 16);
    says(&p, adding(7, X2, LEN(X2)), 0, 0);
    const uint32_t first = amiss & POOL_SPOILT ? 46 : amiss & ROW_SHORT ? 37 : amiss & ROW_WRONG ? 47 : 0;
    const bool spoilt = amiss & POOL_SPOILT;
    if (spoilt) p.table.words[4] = 0;
    if (amiss & ROW_SHORT) {
        Pool whole = p;
        p = lend_all(p.table.words, p.table.len, p.slots.words, p.slots.len, p.row.words, 4, 16);
        give_pool_back(&whole);
    }
    if (amiss & ROW_WRONG) p.row.words[1]++;
    for (size_t i = 0; i < LEN(slots); i++) {
        size_t k = slots[i];
        bool there = k < SLOTS, live = k == 7;
        for (size_t j = 0; j < LEN(own); j++) says(&p, adding(k, own[j].words, own[j].len), first ? first : own[j].number, first ? 0 : own[j].place);
        PoolRequest q = adding(k, many, LEN(many));
        q.room_len = 0;
        says(&p, q, first ? first : 3, 0);
        q = adding(k, X0_OF_2, LEN(X0_OF_2)), q.room_len--;
        says(&p, q, first ? first : 5, 0);
        /* another variable count; then too many nodes */
        says(&p, adding(k, X0_OF_2, LEN(X0_OF_2)), first ? first : !there ? 33 : live ? 34 : 35, 0);
        says(&p, adding(k, X0_AND_X1, LEN(X0_AND_X1)), first ? first : !there ? 33 : live ? 34 : 36, 0);
        if (first || !live) says(&p, dropping(k), first ? first : there ? 34 : 33, 0);
        /* a read takes no row */
        for (size_t room_len = HOUAYLETAN_ROOM(4) - 1; room_len < HOUAYLETAN_ROOM(4) + 3; room_len++) {
            for (size_t output_len = 0; output_len < 12; output_len++) {
                uint32_t answer = room_len < HOUAYLETAN_ROOM(4) ? 5 : output_len < LEN(X2) ? 4 : 0;
                says(&p, reading(k, room_len, output_len), spoilt ? 46 : !there ? 33 : !live ? 34 : answer, 0);
            }
        }
    }
    says(&p, summarizing(), first == 47 ? 0 : first, 0);
    if (first == 47) says(&p, dropping(7), 0, 0);
    give_pool_back(&p);
}

/* Rows of every length, with right records and with wrong ones; what is behind the variables' is never looked at. */
static void rows(void) {
    static const uint32_t vars[] = {0, 1, 3, 20, VARS};
    for (size_t i = 0; i < LEN(vars); i++) {
        const uint32_t v = vars[i], words[] = {v, 0, 0, v, 1, 1, v - 1, 0, 1}, second[] = {v, 0, 0, v, 1, 1, 0, 1, 0};
        const size_t len = v ? LEN(words) : 6;
        Pool p = lend_empty_pool(6, v, 16);
        expect(zero_until(&p.row, 2 * (size_t)v) && kept_from(&p.row, 2 * (size_t)v) && guarded(&p.row), "the row's own records", "pool_empty");
        says(&p, adding(40, words, len), 0, 0);
        for (size_t count = v < 3 ? 0 : v - 3; count < v + 4; count++) {
            static uint32_t row[2 * (VARS + 4)];
            for (size_t j = 0; j < LEN(row); j++) row[j] = filling(17, j);
            summary_of(p.table.words, p.table.len, p.slots.words, row);
            Pool q = lend_all(p.table.words, p.table.len, p.slots.words, p.slots.len, row, 2 * count, 16);
            const bool is_short = count < v;
            says(&q, adding(3, second, len), is_short ? 37 : 0, 0);
            says(&q, summarizing(), is_short ? 37 : 0, 0);
            says(&q, dropping(40), is_short ? 37 : 0, 0);
            /* each of the first words and the last ones */
            for (size_t j = 0; j < 2 * (size_t)v; j += j == 5 && v > 10 ? 2 * (size_t)v - 10 : 1) {
                if (is_short) break;
                const uint32_t kept = q.row.words[j];
                for (uint32_t other = 0; other < 4; other++) {
                    q.row.words[j] = other == 3 ? UINT32_MAX : other;
                    says(&q, dropping(5), q.row.words[j] == kept ? 34 : 47, 0);
                    says(&q, adding(3, words, len), q.row.words[j] == kept ? 34 : 47, 0);
                }
                says(&q, summarizing(), 0, 0);
                expect(q.row.words[j] == kept, "worked out again", "pool_summarize");
            }
            says(&q, dropping(3), is_short ? 37 : 0, 0);
            give_pool_back(&q);
        }
        give_pool_back(&p);
    }
}

/* Lengths of table and slots. The words are a pool's as far as they go. */
static void lengths(void) {
    uint32_t words[3 * 5 + 2] = {3, 0, 0, 3, 1, 1}, slots[SLOTS + 2] = {0, 2};
    for (size_t table_len = 0; table_len <= LEN(words); table_len++) {
        for (size_t slots_len = 0; slots_len <= LEN(slots); slots_len++) {
            bool right = table_len >= 6 && table_len % 3 == 0 && slots_len == SLOTS;
            Pool p = lend_pool(words, table_len, slots, slots_len, 16);
            says(&p, dropping(SLOTS), right ? 33 : 46, 0);
            says(&p, summarizing(), right ? 0 : 46, 0);
            says(&p, reading(1, HOUAYLETAN_ROOM(table_len / 3), 6), right ? 0 : 46, 0);
            says(&p, adding(0, X2, LEN(X2)), !right ? 46 : table_len < 9 ? 36 : 0, 0);
            give_pool_back(&p);
        }
    }
    static uint32_t longest[3 * (HOUAYLETAN_NODES + 1)] = {3, 0, 0, 3, 1, 1}, none[SLOTS];
    for (size_t len = 3 * HOUAYLETAN_NODES - 1; len <= LEN(longest); len++) {
        Pool p = lend_pool(longest, len, none, SLOTS, 16);
        says(&p, adding(63, X2, LEN(X2)), len == 3 * HOUAYLETAN_NODES ? 0 : 46, 0);
        give_pool_back(&p);
    }
}

/* No variables, constants alone, and the most variables. */
static void constants(void) {
    static const uint32_t vars[] = {0, 1, 3, VARS};
    for (size_t i = 0; i < LEN(vars); i++) {
        for (size_t places = 2; places < 5; places++) {
            Held h = {.vars = vars[i], .places = places};
            Pool p = lend_empty_pool(places, vars[i], 16);
            const uint32_t words[] = {vars[i], 0, 0, vars[i], 1, 1, 0, 1, 1};
            for (size_t k = 0; k < SLOTS; k += 9) {
                answers(&p, &h, adding(k, words, k % 2 ? 3 : vars[i] && k % 4 ? 9 : 6));
                read_all(&p, &h);
            }
            for (size_t k = 0; k < SLOTS; k += 3) answers(&p, &h, dropping(k));
            expect(holds_exactly(&p, &h) && once(&h)->count == 2, "the empty pool again", "pool_drop");
            let_all_go(&h);
            give_pool_back(&p);
        }
    }
    Pool p = lend_empty_pool(2, VARS + 1, 16);
    says(&p, dropping(0), 46, 0);
    give_pool_back(&p);
}

/* ---- rows of calls */

static uint64_t state = 2026;

static size_t below(size_t n) { /* splitmix64 */
    uint64_t z = state += 0x9e3779b97f4a7c15u;
    z = (z ^ z >> 30) * 0xbf58476d1ce4e5b9u;
    z = (z ^ z >> 27) * 0x94d049bb133111ebu;
    return (size_t)((z ^ z >> 31) % n);
}

/* The function of so many variables, up to four, whose value for a valuation is that bit of `holds`: a tree, not reduced. */
static size_t tree(uint32_t vars, uint32_t holds, uint32_t *words) {
    const uint32_t terminals[] = {vars, 0, 0, vars, 1, 1};
    uint32_t n = 2, below_it = 0;
    memcpy(words, terminals, sizeof terminals);
    for (uint32_t var = vars; var-- > 0;) {
        for (uint32_t i = 0; i < (uint32_t)1 << var; i++, n++) {
            uint32_t *node = words + 3 * n;
            node[0] = var;
            for (uint32_t side = 0; side < 2; side++) {
                node[1 + side] = var + 1 == vars ? holds >> (2 * i + side) & 1 : below_it + 2 * i + side;
            }
        }
        below_it = n - ((uint32_t)1 << var);
    }
    return 3 * (size_t)n;
}

/* Calls at random to one pool: slots are few, so that they are taken and empty in turn. */
static void row_of_calls(size_t places, uint32_t vars, int calls) {
    static const size_t slots[] = {0, 1, 2, 17, 62, 63, 64};
    Held h = {.vars = vars, .places = places};
    Pool p = lend_empty_pool(places, vars, 16);
    uint32_t words[3 * 18];
    for (int i = 0; i < calls; i++) {
        size_t slot = slots[below(LEN(slots))], what = below(8);
        bool live = slot < SLOTS && h.array[slot];
        if (what < 4 && (!live || below(6) == 0)) {
            uint32_t few = below(40) == 0 ? vars - 1 : vars;
            PoolRequest q = adding(slot, words, tree(few, (uint32_t)below((size_t)1 << 16), words));
            if (below(12) == 0) q.room_len += below(4) - 1;
            answers(&p, &h, q);
        } else if (what < 6 && (live || below(6) == 0)) {
            answers(&p, &h, dropping(slot));
        } else {
            size_t len = live ? h.len[slot] : 6;
            if (below(4) == 0) answers(&p, &h, summarizing());
            answers(&p, &h, reading(slot, HOUAYLETAN_ROOM(places) + (below(12) == 0 ? below(4) - 1 : 0), below(6) == 0 ? len - 1 + below(4) : len));
        }
    }
    read_all(&p, &h);
    let_all_go(&h);
    give_pool_back(&p);
}

/* ---- any words */

/* The same pool with its nodes at other places, and so many places: from is canonical. */
static Pool scattered(const Pool *from, size_t places) {
    static uint32_t words[3 * HOUAYLETAN_NODES], slots[SLOTS], place[HOUAYLETAN_NODES];
    size_t n = 2;
    memset(words, 0, sizeof words);
    while (3 * n < from->table.len && !is_free_place(from->table.words, n)) n++;
    for (size_t p = 0; p < places; p++) place[p] = (uint32_t)p;
    for (size_t p = places; p-- > 3;) {
        size_t q = 2 + below(p - 1);
        uint32_t swap = place[p];
        place[p] = place[q], place[q] = swap;
    }
    for (size_t p = 0; p < n; p++) {
        uint32_t *to = words + 3 * place[p];
        const uint32_t *node = from->table.words + 3 * p;
        to[0] = node[0], to[1] = place[node[1]], to[2] = place[node[2]];
    }
    for (size_t k = 0; k < SLOTS; k++) slots[k] = from->slots.words[k] ? place[from->slots.words[k] - 1] + 1 : 0;
    return lend_pool(words, 3 * places, slots, SLOTS, 16);
}

/* Each word becomes others: 46; 47 where it is a pool still, of another row; or 33. */
static void every_word(Pool *p) {
    const uint32_t v = p->table.words[0], places = (uint32_t)p->table.len / 3;
    const uint32_t others[] = {0, 1, 2, 3, 4, v - 1, v, v + 1, places - 1, places, places + 1, VARS, VARS + 1, UINT32_MAX};
    Lent *const lent[] = {&p->table, &p->slots, &p->row};
    for (size_t l = 0; l < LEN(lent); l++) {
        for (size_t i = 0; i < lent[l]->len; i++) {
            uint32_t *word = &lent[l]->words[i], kept = *word;
            for (size_t j = 0; j < LEN(others); j++) {
                *word = others[j];
                uint32_t first = stands(p);
                says(p, dropping(SLOTS), first ? first : 33, 0);
            }
            *word = kept;
        }
    }
}

/* Pools whose nodes stand anywhere: they are read, their words are changed, and the next call puts them in order. */
static void any_order(size_t places, size_t more) {
    Held h = {.vars = 4, .places = places};
    Pool p = lend_empty_pool(places, 4, 16);
    uint32_t words[3 * 18];
    for (size_t k = 0; k < 3; k++) answers(&p, &h, adding(21 * k, words, tree(4, (uint32_t)below((size_t)1 << 16), words)));
    Pool other = scattered(&p, places + more);
    expect(well_formed(other.table.words, other.table.len, other.slots.words, SLOTS), "nodes in any order are a pool", "pool_read");
    every_word(&other);
    h.places += more;
    for (size_t k = 0; k < 3; k++) {
        if (!h.array[21 * k]) continue;
        PoolRequest q = reading(21 * k, HOUAYLETAN_ROOM(h.places), h.len[21 * k]);
        PoolReply r = makes(&other, &q);
        expect(r.verdict.number == 0 && memcmp(r.output.words, h.array[21 * k], 4 * h.len[21 * k]) == 0, "read from any order", "pool_read");
        give_reply_back(&r);
    }
    if (below(2) && h.array[21]) answers(&other, &h, dropping(21)); else answers(&other, &h, adding(40, words, tree(4, 1, words)));
    read_all(&other, &h);
    let_all_go(&h);
    give_pool_back(&other);
    give_pool_back(&p);
}

/* ---- the most */

/* As many nodes and variables as are taken, children first: each level has a node more than the one above, up to its share of those left. */
static size_t longest(uint32_t *words) {
    const uint32_t terminals[] = {VARS, 0, 0, VARS, 1, 1};
    size_t left = HOUAYLETAN_NODES - 2, width = 1, p = HOUAYLETAN_NODES - 1;
    memcpy(words, terminals, sizeof terminals);
    for (uint32_t x = 0; x < VARS; x++) {
        left -= width;
        size_t share = x + 1 < VARS ? left / (VARS - 1 - x) : 0, next = width < share ? width + 1 : share;
        for (size_t j = 0; j < width; j++, p--) {
            uint32_t *node = words + 3 * p, first = (uint32_t)(p + j - width);
            node[0] = x, node[1] = next ? first - (uint32_t)j : (uint32_t)j % 2, node[2] = next ? first - (uint32_t)((j + 1) % next) : 1;
        }
        width = next;
    }
    return 3 * HOUAYLETAN_NODES;
}

static void the_most(void) {
    static uint32_t words[3 * HOUAYLETAN_NODES], whole[3 * HOUAYLETAN_NODES];
    size_t len = longest(words);
    size_t places = houayletan_reduce(words, len, spare, LEN(spare), whole, LEN(whole)).nodes;
    expect(places > VARS, "a diagram of every variable", "reduce");
    for (size_t less = 0; less < 2; less++) { /* one place short, then exact */
        Held h = {.vars = VARS, .places = places - 1 + less};
        Pool p = lend_empty_pool(h.places, VARS, 16);
        answers(&p, &h, adding(63, words, len));
        expect((h.array[63] != NULL) == less, "no room by one place", "pool_add");
        answers(&p, &h, adding(0, whole, 3 * places));
        answers(&p, &h, adding(1, whole, 6));
        read_all(&p, &h);
        answers(&p, &h, dropping(63));
        read_all(&p, &h);
        let_all_go(&h);
        give_pool_back(&p);
    }
    /* the most places, with as many conditions as there are slots */
    Held h = {.vars = VARS, .places = HOUAYLETAN_NODES};
    Pool p = lend_empty_pool(HOUAYLETAN_NODES, VARS, 16);
    for (size_t k = 0; k < SLOTS; k++) {
        /* all nodes from one on down, which share what is below them */
        uint32_t cut[3 * (VARS + 2)] = {VARS, 0, 0, VARS, 1, 1};
        uint32_t n = 2;
        for (uint32_t x = VARS; x-- > 0;) {
            if (x % (k + 1) == 0 || x > VARS - 20) cut[3 * n] = x, cut[3 * n + 1] = 0, cut[3 * n + 2] = n == 2 ? 1 : n - 1, n++;
        }
        answers(&p, &h, adding(SLOTS - 1 - k, cut, 3 * (size_t)n));
    }
    read_all(&p, &h);
    answers(&p, &h, adding(5, words, len));
    for (size_t k = 0; k < SLOTS; k += 2) answers(&p, &h, dropping(k));
    answers(&p, &h, adding(4, words, len));
    read_all(&p, &h);
    let_all_go(&h);
    give_pool_back(&p);
}

int main(void) {
    worked_example();
    for (int amiss = 0; amiss <= ALL_AMISS; amiss++) refusals(amiss);
    rows();
    lengths();
    constants();
    for (size_t places = 2; places < 12; places++) row_of_calls(places, 3, 500);
    for (size_t places = 6; places < 40; places += 3) row_of_calls(places, 4, 500);
    for (size_t i = 0; i < 24; i++) any_order(26, i % 4);
    the_most();
    printf("C test of pools: %d passed, %d failed\n", passed, failed);
    return failed != 0;
}
