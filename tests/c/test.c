/* The archive as a C program sees it: worked examples, every row of the tables of refusals, lengths exact and one short,
 * and what a call leaves in the lent buffers. Prints what fails; the last line has the counts. */
#include "comparing.h"
#include "settings.h"

static int passed, failed;

static void expect(bool right, const char *what, const char *operation) {
    if (right) {
        passed++;
    } else {
        failed++;
        printf("FAILED: %s: %s\n", operation, what);
    }
}

#define FILL 0xA5A5A5A5u
#define MOST (HOUAYLETAN_NODES + 2)
#define VARS HOUAYLETAN_VARS

static uint32_t room[HOUAYLETAN_ROOM_PER_NODE * MOST + 4], output[HOUAYLETAN_COUNT_WORDS * MOST + 4];

static void fill(void) {
    for (size_t i = 0; i < sizeof room / sizeof room[0]; i++) room[i] = FILL;
    for (size_t i = 0; i < sizeof output / sizeof output[0]; i++) output[i] = FILL;
}

static bool all(const uint32_t *w, size_t from, size_t to, uint32_t value) {
    for (size_t i = from; i < to; i++) {
        if (w[i] != value) return false;
    }
    return true;
}

#define LEN(a) (sizeof(a) / sizeof((a)[0]))

/* D: x2, or x0 and x1. */
static const uint32_t D[] = {3, 0, 0, 3, 1, 1, 2, 0, 1, 1, 2, 1, 0, 2, 3};
static const uint32_t AND3[] = {3, 0, 0, 3, 1, 1, 2, 0, 1, 1, 0, 2, 0, 0, 3};
static const uint32_t FALSE3[] = {3, 0, 0};
static const uint32_t TRUE3[] = {3, 0, 0, 3, 1, 1};

static Request asks(const uint32_t *words, size_t len) {
    size_t n = len / 3;
    return (Request){words, len, words, 0, {0}, 0, room, HOUAYLETAN_ROOM(n), output, 0};
}

static Request with_flag(Request q, uint32_t as_is) {
    q.as_is = as_is;
    return q;
}

/* Calls with buffers of the exact lengths, or those of the request, and looks at what must stay. */
static Reply answer(const char *name, Request q, uint32_t number, size_t place) {
    const Operation *o = operation(name);
    size_t n = q.words_len / 3;
    if (q.output_len == 0) q.output_len = output_asked(o->output, n);
    fill();
    Reply r = call(o, &q);
    expect(r.verdict.number == number && r.verdict.place == place, "number and place", name);
    if (r.verdict.number != number || r.verdict.place != place) {
        printf("  got %u at %zu, not %u at %zu\n", r.verdict.number, r.verdict.place, number, place);
    }
    if (number != 0) {
        bool none = r.verdict.nodes == 0 && r.verdict.vars == 0;
        for (int i = 0; i < HOUAYLETAN_COUNT_WORDS; i++) none = none && r.value[i] == 0;
        expect(none, "all else in a refused result is zero", name);
    } else {
        expect(r.verdict.nodes == n && r.verdict.vars == q.words[0], "the counts of the input", name);
    }
    size_t zero = number >= 1 && number <= 5 ? 0 : HOUAYLETAN_ROOM(n);
    expect(all(room, 0, zero, 0) && all(room, zero, LEN(room), FILL), "the room afterwards", name);
    expect(all(output, number == 0 ? r.written : 0, LEN(output), FILL), "the output beyond the result", name);
    return r;
}

static void answers_words(const char *name, Request q, const uint32_t *words, size_t len, size_t trials) {
    Reply r = answer(name, q, 0, 0);
    expect(r.value[0] == len / 3 && memcmp(output, words, 4 * len) == 0, "the answer's words", name);
    expect(r.values == 1 || r.value[1] == trials, "the trials", name);
}

/* A result, or a refusal where there is a number; with as_is and without, where the operation takes it. */
static void answers_either_way(const char *name, Request q, uint32_t number, size_t place, const uint32_t *words, size_t len, size_t trials) {
    for (uint32_t as_is = 0; as_is <= (to_target(operation(name)) ? 1 : 0); as_is++) {
        if (number == 0) {
            answers_words(name, with_flag(q, as_is), words, len, trials);
        } else {
            answer(name, with_flag(q, as_is), number, place);
        }
    }
}

static bool is_count(Reply r, const uint32_t *count) {
    bool same = r.values == HOUAYLETAN_COUNT_WORDS;
    for (size_t i = 0; i < r.values; i++) same = same && r.value[i] == count[i];
    return same;
}

static void counts(const uint32_t *words, size_t len, uint32_t count, uint32_t paths) {
    const uint32_t of_count[HOUAYLETAN_COUNT_WORDS] = {count}, of_paths[HOUAYLETAN_COUNT_WORDS] = {paths};
    expect(is_count(answer("exact_cardinality", asks(words, len), 0, 0), of_count), "the count", "exact_cardinality");
    expect(is_count(answer("exact_clause_cardinality", asks(words, len), 0, 0), of_paths), "the paths", "exact_clause_cardinality");
    double d = count;
    uint64_t bits;
    memcpy(&bits, &d, sizeof bits);
    expect(answer("cardinality", asks(words, len), 0, 0).value[0] == bits, "the count", "cardinality");
}

/* Count and weights together, and the weights alone. */
static void weighs(const uint32_t *words, size_t len, uint32_t count, const uint32_t *weights) {
    const uint32_t of_count[HOUAYLETAN_COUNT_WORDS] = {count};
    static const char *const names[] = {"count_and_weights", "node_valuation_weights"};
    for (size_t i = 0; i < LEN(names); i++) {
        Reply r = answer(names[i], asks(words, len), 0, 0);
        expect(r.written == HOUAYLETAN_WEIGHTS(len / 3), "a weight for each node", names[i]);
        for (size_t p = 0; p < len / 3; p++) {
            size_t at = HOUAYLETAN_WEIGHTS(p);
            expect(output[at] == weights[p] && all(output, at + 1, HOUAYLETAN_WEIGHTS(p + 1), 0), "the weights", names[i]);
        }
        if (i == 0) expect(is_count(r, of_count), "the count", names[i]);
    }
}

/* Every operation takes and refuses the same words, in the same order. */
static void refusals(const Operation *o, uint32_t as_is) {
    static const struct {
        size_t len;
        uint32_t words[15];
        uint32_t number;
        size_t place;
    } cases[] = {
        {0, {0}, 1, 0},
        {1, {0}, 2, 0},
        {14, {3, 0, 0, 3, 1, 1, 2, 0, 1, 1, 2, 1, 0, 2}, 2, 0},
        {3, {3, 0, 1}, 6, 0},
        {6, {3, 0, 0, 2, 1, 1}, 6, 1},
        {6, {VARS + 1, 0, 0, VARS, 1, 1}, 6, 1},
        {15, {3, 1, 0, 3, 1, 1, 2, 0, 1, 1, 2, 1, 0, 2, 3}, 6, 0},
        {3, {VARS + 1, 0, 0}, 7, 0},
        {6, {UINT32_MAX, 0, 0, UINT32_MAX, 1, 1}, 7, 0},
        {9, {VARS + 1, 0, 0, VARS + 1, 1, 1, VARS + 1, 3, 3}, 7, 0},
        {15, {3, 0, 0, 3, 1, 1, 2, 0, 1, 3, 5, 5, 0, 2, 3}, 8, 3},
        {15, {3, 0, 0, 3, 1, 1, 2, 0, 1, 1, 5, 5, 0, 2, 3}, 9, 3},
        {15, {3, 0, 0, 3, 1, 1, 2, 0, 1, 1, 2, 5, 0, UINT32_MAX, 3}, 10, 3},
        {12, {1, 0, 0, 1, 1, 1, 0, 2, 0, 0, 2, 1}, 11, 2},
        {12, {1, 0, 0, 1, 1, 1, 0, 0, 1, 0, 3, 1}, 11, 3},
        {9, {1, 0, 0, 1, 1, 1, 0, 1, 2}, 17, 2},
        {9, {1, 0, 0, 1, 1, 1, 0, 2, 2}, 11, 2},
        {12, {1, 0, 0, 1, 1, 1, 0, 1, 2, 0, 2, 1}, 17, 2},
        {12, {1, 0, 0, 1, 1, 1, 0, 2, 1, 0, 1, 2}, 11, 2},
        {12, {1, 0, 0, 1, 1, 1, 0, 0, 1, 0, 1, 3}, 17, 3},
        {12, {1, 0, 0, 1, 1, 1, 0, 2, 2, 0, 0, 1}, 12, 2},
        {9, {0, 0, 0, 0, 1, 1, 0, 0, 1}, 8, 2},
    };
    for (size_t i = 0; i < LEN(cases); i++) answer(o->name, with_flag(asks(cases[i].words, cases[i].len), as_is), cases[i].number, cases[i].place);

    static uint32_t many[3 * (HOUAYLETAN_NODES + 1)];
    memcpy(many, TRUE3, sizeof TRUE3);
    answer(o->name, with_flag(asks(many, LEN(many)), as_is), 3, 0);

    /* exactly long enough is taken above; one short, and both short */
    Request q = with_flag(asks(D, LEN(D)), as_is);
    q.room_len -= 1;
    answer(o->name, q, 5, 0);
    if (o->output != NO_OUTPUT) {
        q.output_len = output_asked(o->output, 5) - 1;
        answer(o->name, q, 4, 0);
        q.room_len += 1;
        answer(o->name, q, 4, 0);
    }
    q = with_flag(asks(FALSE3, LEN(FALSE3)), as_is);
    q.room_len = HOUAYLETAN_ROOM(1) - 1;
    answer(o->name, q, 5, 0);
    if (o->output != NO_OUTPUT) {
        q.room_len = HOUAYLETAN_ROOM(1), q.output_len = output_asked(o->output, 1) - 1;
        answer(o->name, q, 4, 0);
    }
    q = with_flag(asks(many, 3 * HOUAYLETAN_NODES), as_is);
    q.room_len = 0;
    answer(o->name, q, 5, 0);
}

/* Targets that the array meets as it is given, where as_is says what comes out; and targets that it does not meet, where as_is says
 * nothing, also where the reduced diagram would meet them. Any as_is but 0 is a yes. */
static void met_targets(void) {
    /* x1, under a root with low = high: four nodes, two of the four valuations */
    static const uint32_t X1[] = {2, 0, 0, 2, 1, 1, 1, 0, 1, 0, 2, 2};
    static const uint32_t LONG_FALSE[] = {1, 0, 0, 1, 1, 1, 0, 0, 0}, LONG_TRUE[] = {1, 0, 0, 1, 1, 1, 0, 1, 1};
    static const uint32_t flags[] = {0, 1, 2, 7, 256, 65536, (uint32_t)1 << 31, UINT32_MAX};
    static const struct {
        const char *name;
        const uint32_t *words;
        size_t len;
        uint32_t target;
        bool met;
        size_t result_len; /* without as_is, and of a target that is not met */
        uint32_t result[9];
        size_t trials;
    } cases[] = {
        {"underapproximate_to_size", X1, LEN(X1), 3, false, 9, {2, 0, 0, 2, 1, 1, 1, 0, 1}, 1},
        {"underapproximate_to_size", X1, LEN(X1), 4, true, 9, {2, 0, 0, 2, 1, 1, 1, 0, 1}, 0},
        {"underapproximate_to_size", X1, LEN(X1), UINT32_MAX, true, 9, {2, 0, 0, 2, 1, 1, 1, 0, 1}, 0},
        {"overapproximate_to_size", X1, LEN(X1), 3, false, 9, {2, 0, 0, 2, 1, 1, 1, 0, 1}, 1},
        {"overapproximate_to_size", X1, LEN(X1), 4, true, 9, {2, 0, 0, 2, 1, 1, 1, 0, 1}, 0},
        {"overapproximate_to_size", X1, LEN(X1), UINT32_MAX, true, 9, {2, 0, 0, 2, 1, 1, 1, 0, 1}, 0},
        {"underapproximate_to_cardinality", X1, LEN(X1), 1, false, 3, {2, 0, 0}, 1},
        {"underapproximate_to_cardinality", X1, LEN(X1), 2, true, 9, {2, 0, 0, 2, 1, 1, 1, 0, 1}, 0},
        {"underapproximate_to_cardinality", X1, LEN(X1), 5, true, 9, {2, 0, 0, 2, 1, 1, 1, 0, 1}, 0},
        {"overapproximate_to_cardinality", X1, LEN(X1), 0, true, 9, {2, 0, 0, 2, 1, 1, 1, 0, 1}, 0},
        {"overapproximate_to_cardinality", X1, LEN(X1), 2, true, 9, {2, 0, 0, 2, 1, 1, 1, 0, 1}, 0},
        {"overapproximate_to_cardinality", X1, LEN(X1), 3, false, 6, {2, 0, 0, 2, 1, 1}, 1},
        /* constants in three nodes come out as one and two; under to 0 is no target that an array meets */
        {"underapproximate_to_size", LONG_FALSE, LEN(LONG_FALSE), 3, true, 3, {1, 0, 0}, 0},
        {"overapproximate_to_size", LONG_FALSE, LEN(LONG_FALSE), 3, true, 3, {1, 0, 0}, 0},
        {"underapproximate_to_cardinality", LONG_FALSE, LEN(LONG_FALSE), 0, false, 3, {1, 0, 0}, 0},
        {"underapproximate_to_cardinality", LONG_FALSE, LEN(LONG_FALSE), 1, true, 3, {1, 0, 0}, 0},
        {"overapproximate_to_cardinality", LONG_FALSE, LEN(LONG_FALSE), 0, true, 3, {1, 0, 0}, 0},
        {"underapproximate_to_size", LONG_TRUE, LEN(LONG_TRUE), 3, true, 6, {1, 0, 0, 1, 1, 1}, 0},
        {"overapproximate_to_size", LONG_TRUE, LEN(LONG_TRUE), 3, true, 6, {1, 0, 0, 1, 1, 1}, 0},
        {"underapproximate_to_cardinality", LONG_TRUE, LEN(LONG_TRUE), 2, true, 6, {1, 0, 0, 1, 1, 1}, 0},
        {"overapproximate_to_cardinality", LONG_TRUE, LEN(LONG_TRUE), 2, true, 6, {1, 0, 0, 1, 1, 1}, 0},
    };
    for (size_t i = 0; i < LEN(cases); i++) {
        for (size_t j = 0; j < LEN(flags); j++) {
            Request q = with_flag(asks(cases[i].words, cases[i].len), flags[j]);
            q.target[0] = cases[i].target;
            bool kept = cases[i].met && flags[j] != 0;
            const uint32_t *words = kept ? cases[i].words : cases[i].result;
            size_t len = kept ? cases[i].len : cases[i].result_len;
            answers_words(cases[i].name, q, words, len, cases[i].trials);
            q.room_len += 3, q.output_len = cases[i].len + 3;
            answers_words(cases[i].name, q, words, len, cases[i].trials);
            /* the output is asked for by the array's nodes, whatever the answer needs */
            q.output_len = cases[i].len - 1;
            answer(cases[i].name, q, 4, 0);
            q.output_len = cases[i].len, q.room_len = HOUAYLETAN_ROOM(cases[i].len / 3) - 1;
            answer(cases[i].name, q, 5, 0);
        }
    }
}

/* ---- the most variables, and counts of all their words */

static const uint32_t FALSE_ALL[] = {VARS, 0, 0}, TRUE_ALL[] = {VARS, 0, 0, VARS, 1, 1};

/* A sum of powers of two, least first. */
typedef struct {
    uint32_t powers, power[3];
} Sum;

static void sum_of(Sum sum, uint32_t *count) {
    memset(count, 0, HOUAYLETAN_COUNT_WORDS * sizeof count[0]);
    for (uint32_t i = 0; i < sum.powers; i++) count[sum.power[i] / 32] |= (uint32_t)1 << sum.power[i] % 32;
}

/* The first and the last bits of the words, in turn. */
static uint32_t next_edge(uint32_t i) { return i % 32 ? i + 1 : i + 31; }

static bool bit(const uint32_t *count, uint32_t i) { return count[i / 32] >> i % 32 & 1; }

/* The valuations that are below a number, x0 its highest bit: as many as the number says, which is from 0 to 2^VARS. */
static size_t below(const uint32_t *number, uint32_t *words) {
    memcpy(words, TRUE_ALL, sizeof TRUE_ALL);
    if (bit(number, VARS)) return LEN(TRUE_ALL);
    uint32_t i = 0, rest = 0, p = 2;
    while (i < VARS && !bit(number, i)) i++;
    if (i == VARS) return LEN(FALSE_ALL);
    for (; i < VARS; i++, p++) {
        uint32_t *node = words + 3 * p;
        node[0] = VARS - 1 - i, node[1] = bit(number, i) ? 1 : rest, node[2] = bit(number, i) ? rest : 0;
        rest = p;
    }
    return 3 * (size_t)p;
}

/* Of what is below a number: a node at bit i weighs the number's bits from i down. */
static void wide_weights(const char *name, Request q, const uint32_t *number) {
    uint32_t n = (uint32_t)q.words_len / 3, lowest = VARS + 2 - n;
    Reply r = answer(name, q, 0, 0);
    expect(r.values == 0 || is_count(r, number), "a wide count", name);
    bool right = all(output, 0, HOUAYLETAN_WEIGHTS(1), 0) && memcmp(output + HOUAYLETAN_WEIGHTS(1), number, 4 * HOUAYLETAN_WEIGHTS(1)) == 0;
    for (uint32_t p = 2; p < n; p++) {
        for (uint32_t i = 0; i < 32 * HOUAYLETAN_COUNT_WORDS; i++) {
            right = right && bit(output + HOUAYLETAN_WEIGHTS(p), i) == (i <= lowest + p - 2 && bit(number, i));
        }
    }
    expect(right, "wide weights", name);
}

static void wide_negation(Request q, const uint32_t *number) {
    static uint32_t negation[3 * (VARS + 2)];
    size_t len = answer("not", q, 0, 0).written;
    memcpy(negation, output, 4 * len);
    Reply r = answer("exact_cardinality", asks(negation, len), 0, 0);
    uint64_t carry = 0;
    for (uint32_t i = 0; i < HOUAYLETAN_COUNT_WORDS; i++) {
        carry += r.value[i] + number[i];
        expect((uint32_t)carry == (i == VARS / 32 ? (uint32_t)1 << VARS % 32 : 0), "both add up to all", "not");
        carry >>= 32;
    }
}

static void wide_count(const uint32_t *number) {
    static uint32_t words[3 * (VARS + 2)];
    const Request q = asks(words, below(number, words));
    uint32_t paths[HOUAYLETAN_COUNT_WORDS] = {0}, top = 0;
    for (uint32_t i = 0; i < VARS; i++) {
        if (bit(number, i)) paths[0]++, top = i;
    }
    expect(is_count(answer("exact_cardinality", q, 0, 0), number), "a wide count", "exact_cardinality");
    expect(is_count(answer("exact_clause_cardinality", q, 0, 0), paths), "the paths", "exact_clause_cardinality");
    uint64_t bits = answer("cardinality", q, 0, 0).value[0];
    expect(paths[0] != 1 || bits == (uint64_t)(1023 + top) << 52, "a power of two", "cardinality");
    wide_weights("count_and_weights", q, number);
    wide_weights("node_valuation_weights", q, number);
    answers_words("reduce", q, words, q.words_len, 0);
    wide_negation(q, number);
}

static void wide_counts(void) {
    static const Sum sums[] = {{3, {0, 255, VARS - 1}}, {1, {VARS - 1}}, {2, {0, 256}}, {2, {31, 288}}, {3, {255, 256, 257}}};
    uint32_t number[HOUAYLETAN_COUNT_WORDS];
    for (size_t i = 0; i < LEN(sums); i++) sum_of(sums[i], number), wide_count(number);
    for (uint32_t i = 0; i < VARS; i = next_edge(i)) sum_of((Sum){1, {i}}, number), wide_count(number);
    /* all ones, up to every word's last bit; and another number in each word */
    memset(number, 0, sizeof number);
    for (uint32_t i = 0; i < HOUAYLETAN_COUNT_WORDS; i++) {
        number[i] = i == VARS / 32 ? ((uint32_t)1 << VARS % 32) - 1 : UINT32_MAX;
        wide_count(number);
    }
    for (uint32_t i = 0; i < HOUAYLETAN_COUNT_WORDS; i++) number[i] = (i + 1) * 0x0DDBA11u;
    wide_count(number);
    /* the constant */
    sum_of((Sum){1, {VARS}}, number);
    expect(is_count(answer("exact_cardinality", asks(TRUE_ALL, LEN(TRUE_ALL)), 0, 0), number), "2 to the variables", "exact_cardinality");
    expect(is_count(answer("count_and_weights", asks(TRUE_ALL, LEN(TRUE_ALL)), 0, 0), number), "2 to the variables", "count_and_weights");
    expect(memcmp(output + HOUAYLETAN_WEIGHTS(1), number, sizeof number) == 0, "node 1's weight", "count_and_weights");
}

/* Targets of many words. Of what is below 2^510 + 2^255 + 1 each answer is again what is below a number. */
static void wide_targets(void) {
    static const struct {
        const char *name;
        Sum target;
        uint32_t number;
        Sum result;
        size_t trials;
    } cases[] = {
        {"underapproximate_to_cardinality", {3, {0, 255, 510}}, 0, {3, {0, 255, 510}}, 0},
        {"underapproximate_to_cardinality", {2, {256, 510}}, 0, {3, {0, 255, 510}}, 0},
        {"underapproximate_to_cardinality", {2, {255, 510}}, 0, {2, {255, 510}}, 1},
        {"underapproximate_to_cardinality", {1, {510}}, 0, {1, {510}}, 1},
        {"underapproximate_to_cardinality", {1, {509}}, 0, {0, {0}}, 1},
        {"overapproximate_to_cardinality", {1, {510}}, 0, {3, {0, 255, 510}}, 0},
        {"overapproximate_to_cardinality", {3, {0, 255, 510}}, 0, {3, {0, 255, 510}}, 0},
        {"overapproximate_to_cardinality", {3, {1, 255, 510}}, 0, {3, {1, 255, 510}}, 1},
        {"overapproximate_to_cardinality", {2, {256, 510}}, 0, {2, {256, 510}}, 1},
        {"overapproximate_to_cardinality", {1, {VARS}}, 0, {1, {VARS}}, 0},
        {"overapproximate_to_cardinality", {2, {0, VARS}}, 16, {0, {0}}, 0},
    };
    static uint32_t words[3 * (VARS + 2)], result[LEN(words)];
    uint32_t number[HOUAYLETAN_COUNT_WORDS];
    sum_of((Sum){3, {0, 255, 510}}, number);
    Request q = asks(words, below(number, words));
    for (size_t i = 0; i < LEN(cases); i++) {
        sum_of(cases[i].result, number);
        size_t len = below(number, result);
        sum_of(cases[i].target, q.target);
        answers_either_way(cases[i].name, q, cases[i].number, 0, result, len, cases[i].trials);
    }
    /* every word of a target is looked at; the constants, between 0 and 2^VARS and at its end */
    for (uint32_t i = 32; i < 32 * HOUAYLETAN_COUNT_WORDS; i = next_edge(i)) {
        q = asks(D, LEN(D));
        sum_of((Sum){1, {i}}, q.target);
        answers_either_way("underapproximate_to_cardinality", q, 0, 0, D, LEN(D), 0);
        answers_either_way("overapproximate_to_cardinality", q, 16, 0, NULL, 0, 0);
        bool whole = i == VARS;
        q.words = TRUE_ALL, q.words_len = LEN(TRUE_ALL), q.room_len = HOUAYLETAN_ROOM(2);
        answers_either_way("underapproximate_to_cardinality", q, whole ? 0 : 19, 0, TRUE_ALL, LEN(TRUE_ALL), 0);
        q.words = FALSE_ALL, q.words_len = LEN(FALSE_ALL);
        answers_either_way("overapproximate_to_cardinality", q, whole ? 0 : 19, 0, TRUE_ALL, LEN(TRUE_ALL), 0);
    }
}

/* As many nodes and as many variables as are taken, children first: each level has a node more than the one above, up to its share of
 * those left, and each node goes to the one below it and to the next. */
static size_t longest(uint32_t *words) {
    size_t left = HOUAYLETAN_NODES - 2, width = 1, p = HOUAYLETAN_NODES - 1;
    memcpy(words, TRUE_ALL, sizeof TRUE_ALL);
    for (uint32_t x = 0; x < VARS; x++) {
        left -= width;
        size_t share = x + 1 < VARS ? left / (VARS - 1 - x) : 0, next = width < share ? width + 1 : share;
        for (size_t j = 0; j < width; j++, p--) {
            uint32_t *node = words + 3 * p, first = (uint32_t)(p + j - width);
            node[0] = x, node[1] = next ? first - (uint32_t)j : (uint32_t)j % 2, node[2] = next ? first - (uint32_t)((j + 1) % next) : 1;
        }
        width = next;
    }
    return 3 * HOUAYLETAN_NODES;
}

/* One node, two and the most, of the most variables and of one more; room and output exact, longer and one short. */
static void limits(const Operation *o, uint32_t as_is) {
    static uint32_t words[3 * HOUAYLETAN_NODES];
    const size_t lens[] = {LEN(FALSE_ALL), LEN(TRUE_ALL), longest(words)};
    for (size_t i = 0; i < LEN(lens); i++) {
        const Request exact = with_flag(asks(words, lens[i]), as_is);
        Request q = exact;
        size_t asked = output_asked(o->output, lens[i] / 3);
        if (o->argument == COUNT_TARGET) sum_of((Sum){1, {VARS}}, q.target); else q.target[0] = HOUAYLETAN_NODES;
        answer(o->name, q, 0, 0);
        q.room_len = exact.room_len + 3, q.output_len = asked + 3;
        answer(o->name, q, 0, 0);
        q.room_len = exact.room_len - 1;
        answer(o->name, q, 5, 0);
        if (o->output != NO_OUTPUT) {
            q.output_len = asked - 1;
            answer(o->name, q, 4, 0);
            q.room_len = exact.room_len;
            answer(o->name, q, 4, 0);
        }
        q.room_len = exact.room_len, q.output_len = asked;
        words[0] = words[3] = VARS + 1;
        answer(o->name, q, 7, 0);
        words[0] = words[3] = VARS;
    }
}

/* ---- node files */

#define MOST_BYTES HOUAYLETAN_BYTES(HOUAYLETAN_NODES)

/* A call with guards all around, and what it must say. */
static void stores(FileLoan *l, const void *input, uint32_t number, size_t place) {
    const char *name = l->writes ? "write_as_bytes" : "read_as_bytes";
    HouayletanStored r = call_file(l);
    const char *fault = wrong_file(l, &r, input);
    expect(!fault, fault, name);
    expect(r.number == number && r.place == place, "number and place", name);
    if (r.number != number || r.place != place) printf("  got %u at %zu, not %u at %zu\n", r.number, r.place, number, place);
    give_file_back(l);
}

static void reads(const uint8_t *bytes, size_t len, size_t output_len, uint32_t number, size_t place) {
    FileLoan l = loan_to_read(bytes, len, output_len, (uint32_t)len, 16);
    stores(&l, bytes, number, place);
}

static void writes(const uint32_t *words, size_t len, size_t bytes_len, uint32_t number, size_t place) {
    FileLoan l = loan_to_write(words, len, bytes_len, (uint32_t)len, 16);
    stores(&l, words, number, place);
}

static uint32_t file_words[3 * (HOUAYLETAN_NODES + 2)];
static uint8_t file_bytes[2 * MOST_BYTES];

/* Any words, but for variables that fit two bytes, are written and read back; one side too short for them is refused. */
static void round_trip(size_t n) {
    static uint8_t bytes[MOST_BYTES];
    static uint32_t back[3 * HOUAYLETAN_NODES];
    HouayletanStored w = houayletan_write_as_bytes(file_words, 3 * n, bytes, sizeof bytes);
    HouayletanStored r = houayletan_read_as_bytes(bytes, HOUAYLETAN_BYTES(n), back, LEN(back));
    expect(w.number == 0 && w.nodes == n && r.number == 0 && r.nodes == n, "there and back", "write_as_bytes");
    expect(memcmp(back, file_words, 12 * n) == 0, "the same words", "read_as_bytes");
    for (size_t more = 0; more < 25; more += 8) {
        writes(file_words, 3 * n, HOUAYLETAN_BYTES(n) + more, 0, 0);
        reads(bytes, HOUAYLETAN_BYTES(n), 3 * n + more, 0, 0);
    }
    writes(file_words, 3 * n, HOUAYLETAN_BYTES(n) - 1, 54, 0);
    writes(file_words, 3 * n, 0, 54, 0);
    reads(bytes, HOUAYLETAN_BYTES(n), 3 * n - 1, 54, 0);
    reads(bytes, HOUAYLETAN_BYTES(n), 0, 54, 0);
    reads(bytes, HOUAYLETAN_BYTES(n) - 1, 3 * n, 52, 0);
    writes(file_words, 3 * n - 1, HOUAYLETAN_BYTES(n), 2, 0);
    /* the widest variable fits; one more is refused at the first node that has it */
    uint32_t kept = file_words[3 * (n - 1)];
    file_words[3 * (n - 1)] = UINT16_MAX;
    writes(file_words, 3 * n, HOUAYLETAN_BYTES(n), 0, 0);
    file_words[3 * (n - 1)] = UINT16_MAX + 1;
    writes(file_words, 3 * n, HOUAYLETAN_BYTES(n), 55, n - 1);
    writes(file_words, 3 * n, HOUAYLETAN_BYTES(n) - 1, 54, 0);
    uint32_t first = file_words[0];
    file_words[0] = UINT32_MAX;
    writes(file_words, 3 * n, HOUAYLETAN_BYTES(n), 55, 0);
    file_words[0] = first;
    file_words[3 * (n - 1)] = kept;
}

static void node_files(void) {
    static const size_t sizes[] = {1, 2, 3, 50, 51, 120, 121, HOUAYLETAN_NODES - 1, HOUAYLETAN_NODES};
    for (size_t i = 0; i < LEN(file_words); i++) file_words[i] = filling(9, i) >> (i % 3 == 0 ? 16 : 0);
    for (size_t i = 0; i < sizeof file_bytes; i++) file_bytes[i] = filling_byte(9, i);
    for (size_t i = 0; i < LEN(sizes); i++) round_trip(sizes[i]);

    /* D, byte by byte */
    static const uint8_t BYTES_OF_D[] = {3, 0, 0, 0, 0, 0, 0, 0, 0, 0, 3, 0, 1, 0, 0, 0, 1, 0, 0, 0, 2, 0, 0, 0, 0, 0, 1, 0, 0, 0,
                                         1, 0, 2, 0, 0, 0, 1, 0, 0, 0, 0, 0, 2, 0, 0, 0, 3, 0, 0, 0};
    static const uint8_t WIDEST_NODE[] = {255, 255, 1, 2, 3, 4, 0xFC, 0xFD, 0xFE, 0xFF};
    uint8_t bytes[sizeof BYTES_OF_D];
    uint32_t words[LEN(D)];
    expect(houayletan_write_as_bytes(D, LEN(D), bytes, sizeof bytes).nodes == 5 && memcmp(bytes, BYTES_OF_D, sizeof bytes) == 0, "D's bytes", "write_as_bytes");
    expect(houayletan_read_as_bytes(BYTES_OF_D, sizeof BYTES_OF_D, words, LEN(words)).nodes == 5 && memcmp(words, D, sizeof D) == 0, "D's words", "read_as_bytes");
    expect(houayletan_read_as_bytes(WIDEST_NODE, sizeof WIDEST_NODE, words, LEN(words)).nodes == 1, "one node", "read_as_bytes");
    expect(words[0] == 65535 && words[1] == 0x04030201 && words[2] == 0xFFFEFDFC, "least byte first", "read_as_bytes");

    /* each refusal before the next, and at its bounds */
    reads(file_bytes, 0, 0, 51, 0);
    reads(file_bytes, 0, 9, 51, 0);
    for (size_t len = 1; len < HOUAYLETAN_BYTES(3); len++) {
        bool whole = len % HOUAYLETAN_BYTES_PER_NODE == 0;
        reads(file_bytes, len, 9, whole ? 0 : 52, 0);
        reads(file_bytes, len, 0, whole ? 54 : 52, 0);
    }
    for (size_t len = MOST_BYTES - 2; len < MOST_BYTES + 25; len++) {
        uint32_t number = len >= HOUAYLETAN_BYTES(HOUAYLETAN_NODES + 1) ? 53 : len == MOST_BYTES ? 0 : 52;
        reads(file_bytes, len, 3 * (HOUAYLETAN_NODES + 3), number, 0);
        reads(file_bytes, len, 0, number ? number : 54, 0);
    }
    reads(file_bytes, sizeof file_bytes, 3 * HOUAYLETAN_NODES, 53, 0);
    writes(file_words, 0, 0, 1, 0);
    writes(file_words, 0, HOUAYLETAN_BYTES(1), 1, 0);
    writes(file_words, 1, HOUAYLETAN_BYTES(1), 2, 0);
    writes(file_words, 2, 0, 2, 0);
    file_words[0] = UINT32_MAX;
    writes(file_words, 3 * HOUAYLETAN_NODES - 1, 0, 2, 0);
    writes(file_words, 3 * HOUAYLETAN_NODES + 1, 0, 2, 0);
    writes(file_words, 3 * HOUAYLETAN_NODES + 3, 0, 53, 0);
    writes(file_words, 3 * HOUAYLETAN_NODES + 4, 0, 2, 0);
    writes(file_words, 3 * HOUAYLETAN_NODES + 3, HOUAYLETAN_BYTES(HOUAYLETAN_NODES + 1), 53, 0);
}

/* ---- settings */

/* A block to both readers, and what the reading of the rules says of it. */
static void reads_settings(const uint8_t *block, size_t len, uint32_t number) {
    for (uint32_t newest = 1; newest <= HOUAYLETAN_SETTINGS_VERSION; newest++) {
        const char *name = newest == 1 ? "read_settings_v1" : "read_settings";
        HouayletanSettingRead expected = reading_settings(block, len, newest);
        LentBytes l = lend_block(block, len, (uint32_t)len, 16);
        HouayletanSettingRead r = call_read_settings(&l, newest);
        const char *fault = wrong_setting_read(&l, &r, block, &expected);
        expect(!fault, fault, name);
        if (newest == HOUAYLETAN_SETTINGS_VERSION) expect(r.number == number, "the number", name);
        if (fault || (newest == HOUAYLETAN_SETTINGS_VERSION && r.number != number)) printf("  got %u, not %u; %zu bytes\n", r.number, newest == 1 ? expected.number : number, len);
        free(l.all);
    }
}

static void writes_settings(uint32_t version, HouayletanSetting x, size_t lent, uint32_t number) {
    uint8_t block[BLOCK];
    LentBytes l = lend_bytes(lent, version + (uint32_t)lent, 16);
    HouayletanSettingWritten r = houayletan_write_settings(version, x, l.bytes, lent);
    block_of(block, version, &x);
    const char *fault = wrong_setting_written(&l, &r, number, block);
    expect(!fault, fault, "write_settings");
    expect(reading_to_store(version, &x, lent) == number, "the reading's number", "write_settings");
    if (fault) printf("  got %u, not %u; version %u, direction %u, kind %u, as_is %u, %zu bytes\n", r.number, number, version, x.direction, x.kind, x.as_is, lent);
    if (!number) {
        HouayletanSettingRead back = houayletan_read_settings(l.bytes, BLOCK);
        expect(back.number == 0 && back.version == version && memcmp(&back.setting, &x, sizeof x) == 0, "there and back", "write_settings");
    }
    free(l.all);
}

/* Each byte of a right block changed: the sums see it; and with the sums of the block as it then is. */
static void damaged_settings(uint32_t version, HouayletanSetting x) {
    uint8_t whole[BLOCK], block[BLOCK];
    block_of(whole, version, &x);
    reads_settings(whole, BLOCK, 0);
    for (size_t i = 0; i < BLOCK; i++) {
        for (int bit = 0; bit < 8; bit++) {
            memcpy(block, whole, BLOCK);
            block[i] ^= (uint8_t)(1 << bit);
            reads_settings(block, BLOCK, 22);
            if (i >= SUMS_AT) continue;
            seal(block);
            /* what the rules say by hand: the version becomes another, direction and kind leave their range, the flag is unused in version 1 and else leaves it,
             * a size grows past 32 bits, and all behind the target is unused */
            uint32_t number = i == 0   ? block[0] == 1 || block[0] == 2 ? UINT32_MAX : 38
                              : i <= 2 ? block[i] > 1 ? 39 : UINT32_MAX
                              : i == 3 ? version == 1 ? 24 : block[3] > 1 ? 39 : 0
                              : i < TARGET_END ? x.kind == HOUAYLETAN_TO_SIZE && i >= 8 ? 39 : 0
                                               : 24;
            /* a kind or a version that is another right one: by the reading alone */
            reads_settings(block, BLOCK, number == UINT32_MAX ? reading_settings(block, BLOCK, HOUAYLETAN_SETTINGS_VERSION).number : number);
        }
    }
}

static void settings(void) {
    const HouayletanSetting five = {HOUAYLETAN_UNDER, HOUAYLETAN_TO_SIZE, 0, {5}};
    HouayletanSetting x, all = {HOUAYLETAN_OVER, HOUAYLETAN_TO_COUNT, 1, {0}};
    memset(all.target, 255, sizeof all.target);

    /* as docs/SETTINGS.md has it */
    static const uint8_t FRONT[] = {1, 0, 0, 0, 5}, BACK[] = {6, 0, 0x1a, 0};
    uint8_t block[BLOCK], longer[BLOCK + 8] = {0};
    HouayletanSettingWritten w = houayletan_write_settings(1, five, block, sizeof block);
    expect(w.number == 0 && w.place == 0 && w.bytes == BLOCK, "written", "write_settings");
    expect(!memcmp(block, FRONT, sizeof FRONT) && !memcmp(block + SUMS_AT, BACK, sizeof BACK), "its bytes", "write_settings");
    size_t zeros = 0;
    while (zeros < SUMS_AT - sizeof FRONT && !block[sizeof FRONT + zeros]) zeros++;
    expect(zeros == SUMS_AT - sizeof FRONT, "its zeros", "write_settings");
    HouayletanSettingRead r = houayletan_read_settings_v1(block, sizeof block);
    expect(r.number == 0 && r.version == 1 && !memcmp(&r.setting, &five, sizeof five), "read back", "read_settings_v1");

    /* each field at its bounds and past them, in both versions; lengths of the output */
    static const uint32_t numbers[] = {0, 1, 2, 255, 256, UINT32_MAX}, versions[] = {0, 1, 2, 3, 255, 256, 257, 258, UINT32_MAX};
    static const size_t lengths[] = {0, 1, BLOCK - 1, BLOCK, BLOCK + 1, BLOCK + 40};
    for (size_t i = 0; i < LEN(numbers); i++) {
        for (uint32_t version = 1; version <= 2; version++) {
            uint32_t past = numbers[i] > 1 ? 39 : 0;
            x = all, x.as_is = 0, x.direction = numbers[i];
            writes_settings(version, x, BLOCK, past);
            x = five, x.kind = numbers[i];
            writes_settings(version, x, BLOCK, past);
            x = five, x.as_is = numbers[i];
            writes_settings(version, x, BLOCK, version == 1 && numbers[i] == 1 ? 39 : past);
            x = five, x.target[0] = numbers[i];
            writes_settings(version, x, BLOCK, 0);
            for (size_t word = 1; word < HOUAYLETAN_COUNT_WORDS; word++) {
                x = five, x.target[word] = numbers[i];
                writes_settings(version, x, BLOCK, numbers[i] ? 39 : 0);
                x.kind = HOUAYLETAN_TO_COUNT;
                writes_settings(version, x, BLOCK, 0);
            }
        }
    }
    x = all, x.as_is = 0;
    writes_settings(1, x, BLOCK, 0);
    writes_settings(2, all, BLOCK, 0);
    for (size_t i = 0; i < LEN(versions); i++) {
        bool known = versions[i] == 1 || versions[i] == 2;
        for (size_t k = 0; k < LEN(lengths); k++) {
            writes_settings(versions[i], five, lengths[k], !known ? 38 : lengths[k] < BLOCK ? 4 : 0);
            x = five, x.direction = 2;
            writes_settings(versions[i], x, lengths[k], !known ? 38 : 39);
            x = five, x.target[15] = 1;
            writes_settings(versions[i], x, lengths[k], !known ? 38 : 39);
        }
    }

    /* lengths of what is read; each byte; the version 1 reader refuses version 2 before all fields */
    for (size_t len = 0; len <= BLOCK + 8; len++) {
        memcpy(longer, block, BLOCK);
        reads_settings(longer, len, len == BLOCK ? 0 : 21);
    }
    damaged_settings(1, five);
    damaged_settings(2, five);
    damaged_settings(2, all);
    x = all, x.as_is = 0;
    damaged_settings(1, x);
    memset(block, 0, sizeof block);
    reads_settings(block, sizeof block, 38);
    block_of(block, 2, &all);
    r = houayletan_read_settings_v1(block, sizeof block);
    expect(r.number == 38 && r.version == 0 && !r.setting.direction && !r.setting.kind && !r.setting.target[0], "nothing of version 2", "read_settings_v1");
    block[1] = 7;
    seal(block);
    expect(houayletan_read_settings_v1(block, sizeof block).number == 38 && houayletan_read_settings(block, sizeof block).number == 39, "38 before 39", "read_settings_v1");
    /* neighbours that are not the same, exchanged: the second sum sees it */
    block_of(block, 1, &five);
    block[3] = 5, block[4] = 0;
    reads_settings(block, sizeof block, 22);
}

/* ---- two diagrams */

static void tell_comparison(const HouayletanComparison *r, uint32_t number, size_t place, uint32_t which) {
    bool right = r->verdict.number == number && r->verdict.place == place && r->which == which;
    expect(right, "number, place and diagram", "compare");
    if (!right) printf("  got %u at %zu of %u, not %u at %zu of %u\n", r->verdict.number, r->verdict.place, r->which, number, place, which);
}

/* A call over what is lent, with guards all around, and what it must say. */
static HouayletanComparison compares(const uint32_t *first, size_t first_len, const uint32_t *second, size_t second_len, size_t room_len,
                                     size_t table_len, uint32_t number, size_t place, uint32_t which) {
    PairLoan l = loan_of_pair(first, first_len, second, second_len, room_len, table_len, (uint32_t)(first_len + second_len), 16);
    HouayletanComparison r = call_compare(&l);
    const char *fault = wrong_comparison(&l, &r, first, second);
    expect(!fault, fault, "compare");
    tell_comparison(&r, number, place, which);
    give_pair_back(&l);
    return r;
}

static size_t larger(size_t a, size_t b) { return a > b ? a : b; }

/* The same with room for both, and for as many pairs as are asked for. */
static HouayletanComparison compares_in(const uint32_t *first, size_t first_len, const uint32_t *second, size_t second_len, size_t pairs,
                                        uint32_t number) {
    size_t room_len = HOUAYLETAN_ROOM(larger(first_len, second_len) / 3);
    return compares(first, first_len, second, second_len, room_len, HOUAYLETAN_TABLE(pairs), number, 0, 0);
}

/* How many pairs two reduced diagrams of three variables reach, by looking at each word of up to three bits. */
static size_t pairs_of_three(const uint32_t *first, size_t first_len, const uint32_t *second, size_t second_len) {
    bool met[16][16] = {{false}};
    size_t count = 0;
    for (uint32_t bits = 0; bits < 8; bits++) {
        size_t p = first_len / 3 - 1, q = second_len / 3 - 1;
        for (;;) {
            if (!met[p][q]) met[p][q] = true, count++;
            if (p < 2 && q < 2) break;
            uint32_t x = first[3 * p], y = second[3 * q], at = x < y ? x : y, side = 1 + (bits >> (2 - at) & 1);
            if (x == at) p = first[3 * p + side];
            if (y == at) q = second[3 * q + side];
        }
    }
    return count;
}

/* The reduced diagram of a function of three variables: bit 4 x0 + 2 x1 + x2 of `holds` is its value. */
static size_t of_three(uint32_t holds, uint32_t *words) {
    uint32_t tree[27] = {3, 0, 0, 3, 1, 1}, reduced[27];
    for (uint32_t i = 0; i < 4; i++) tree[6 + 3 * i] = 2, tree[7 + 3 * i] = holds >> 2 * i & 1, tree[8 + 3 * i] = holds >> (2 * i + 1) & 1;
    for (uint32_t i = 0; i < 2; i++) tree[18 + 3 * i] = 1, tree[19 + 3 * i] = 2 + 2 * i, tree[20 + 3 * i] = 3 + 2 * i;
    tree[24] = 0, tree[25] = 6, tree[26] = 7;
    HouayletanDiagram r = houayletan_reduce(tree, LEN(tree), room, LEN(room), reduced, LEN(reduced));
    memcpy(words, reduced, 12 * r.nodes);
    return 3 * r.nodes;
}

static uint32_t bits_of(uint32_t x) { return x ? (x & 1) + bits_of(x >> 1) : 0; }

/* Every two functions of three variables: counts, the smallest, the pairs, and one place too few. */
static void every_two(void) {
    static uint32_t words[256][27];
    static size_t lens[256];
    for (uint32_t f = 0; f < 256; f++) lens[f] = of_three(f, words[f]);
    for (uint32_t f = 0; f < 256; f++) {
        for (uint32_t g = 0; g < 256; g++) {
            size_t pairs = pairs_of_three(words[f], lens[f], words[g], lens[g]);
            HouayletanComparison r = compares_in(words[f], lens[f], words[g], lens[g], pairs, 0);
            uint32_t smallest = 0;
            while (f != g && (f >> smallest & 1) == (g >> smallest & 1)) smallest++;
            expect(r.verdict.nodes == pairs, "the pairs", "compare");
            expect(r.first[0] == bits_of(f & ~g) && r.second[0] == bits_of(g & ~f) && r.both[0] == bits_of(f & g), "the counts", "compare");
            expect(r.differ == (f != g) && r.smallest[0] == smallest, "the smallest", "compare");
            compares_in(words[f], lens[f], words[g], lens[g], pairs - 1, 32);
        }
    }
}

/* Cuts of some diagrams beside them: from below nothing is new, from above nothing is lost. */
static void cuts_beside(void) {
    static uint32_t words[27], cut[27];
    static const char *const names[] = {"underapproximate", "overapproximate", "underapproximate_to_size", "overapproximate_to_size"};
    for (uint32_t f = 0; f < 256; f++) {
        size_t len = of_three(f, words);
        for (size_t k = 0; k < LEN(names); k++) {
            const Operation *o = operation(names[k]);
            for (uint32_t p = 2; p < len / 3; p++) {
                Request q = asks(words, len);
                q.list = &p, q.list_len = o->argument == LIST, q.target[0] = p, q.output_len = len;
                Reply made = call(o, &q);
                expect(made.verdict.number == 0, "a cut", names[k]);
                memcpy(cut, output, 4 * made.written);
                HouayletanComparison r = compares_in(cut, made.written, words, len, 64, 0);
                expect(is_zero(k % 2 ? r.second : r.first), "a cut goes one way only", names[k]);
            }
        }
    }
}

/* Each refusal before the next, and what is left of room and table: compares() looks at both. */
static void refused_comparisons(void) {
    static const uint32_t X0[] = {1, 0, 0, 1, 1, 1, 0, 0, 1}, FALSE1[] = {1, 0, 0}, FALSE0[] = {0, 0, 0}, TRUE0[] = {0, 0, 0, 0, 1, 1};
    static const struct {
        size_t len;
        uint32_t words[12], number;
        size_t place;
    } cases[] = {
        {0, {0}, 1, 0},
        {4, {1, 0, 0, 1}, 2, 0},
        {6, {1, 0, 0, 1, 1, 0}, 6, 1},
        {3, {VARS + 1, 0, 0}, 7, 0},
        {9, {1, 0, 0, 1, 1, 1, 1, 0, 1}, 8, 2},
        {9, {1, 0, 0, 1, 1, 1, 0, 3, 1}, 9, 2},
        {9, {1, 0, 0, 1, 1, 1, 0, 0, 3}, 10, 2},
        {9, {1, 0, 0, 1, 1, 1, 0, 2, 1}, 11, 2},
        {9, {1, 0, 0, 1, 1, 1, 0, 1, 2}, 17, 2},
        {12, {1, 0, 0, 1, 1, 1, 0, 0, 1, 0, 0, 1}, 12, 2},
    };
    static uint32_t many[3 * (HOUAYLETAN_NODES + 1)];
    memcpy(many, TRUE3, sizeof TRUE3);
    const size_t large = HOUAYLETAN_ROOM(4);
    for (size_t i = 0; i < LEN(cases); i++) {
        const uint32_t *w = cases[i].words;
        size_t len = cases[i].len, place = cases[i].place;
        /* in a room that is just long enough, and in a longer one; a table of nothing hides nothing */
        for (size_t more = 0; more < 300; more += 100) {
            compares(w, len, X0, LEN(X0), HOUAYLETAN_ROOM(len / 3) + more, more, cases[i].number, place, 0);
            compares(w, len, w, len, large + more, 64 + more, cases[i].number, place, 0);
            compares(X0, LEN(X0), w, len, large + more, 130, cases[i].number, place, 1);
            compares(D, LEN(D), w, len, HOUAYLETAN_ROOM(5) + more, more, cases[i].number, place, 1);
            compares(FALSE0, LEN(FALSE0), w, len, large + more, more, cases[i].number, place, 1);
        }
    }
    compares(many, LEN(many), X0, LEN(X0), LEN(room), 64, 3, 0, 0);
    compares(X0, LEN(X0), many, LEN(many), LEN(room), 64, 3, 0, 1);
    /* the room: too short for the first; long enough for it and not for the second, which comes before 31 */
    compares(D, LEN(D), X0, LEN(X0), HOUAYLETAN_ROOM(5) - 1, 640, 5, 0, 0);
    compares(X0, LEN(X0), D, LEN(D), HOUAYLETAN_ROOM(5) - 1, 640, 5, 0, 1);
    compares(X0, LEN(X0), D, LEN(D), HOUAYLETAN_ROOM(3), 640, 5, 0, 1);
    compares(X0, LEN(X0), X0, LEN(X0), 0, 640, 5, 0, 0);
    compares(FALSE1, LEN(FALSE1), FALSE1, LEN(FALSE1), HOUAYLETAN_ROOM(1) - 1, 64, 5, 0, 0);
    /* 31, before 32; then 32, by whole pairs */
    compares(X0, LEN(X0), D, LEN(D), HOUAYLETAN_ROOM(5), 0, 31, 0, 0);
    compares(D, LEN(D), X0, LEN(X0), HOUAYLETAN_ROOM(5) + 9, 650, 31, 0, 0);
    compares(FALSE0, LEN(FALSE0), FALSE1, LEN(FALSE1), HOUAYLETAN_ROOM(1), 64, 31, 0, 0);
    for (size_t len = 0; len < HOUAYLETAN_TABLE(5); len++) {
        /* false and x0 reach three pairs, and false beside itself one */
        compares(FALSE1, LEN(FALSE1), X0, LEN(X0), HOUAYLETAN_ROOM(3), len, len < HOUAYLETAN_TABLE(3) ? 32 : 0, 0, 0);
        compares(FALSE1, LEN(FALSE1), FALSE1, LEN(FALSE1), HOUAYLETAN_ROOM(1), len, len < HOUAYLETAN_TABLE(1) ? 32 : 0, 0, 0);
    }
    /* no variables: the empty valuation is the smallest, or there is none */
    expect(compares_in(FALSE0, LEN(FALSE0), TRUE0, LEN(TRUE0), 1, 0).differ == 1, "the empty valuation", "compare");
    expect(compares_in(TRUE0, LEN(TRUE0), TRUE0, LEN(TRUE0), 1, 0).differ == 0, "no difference", "compare");
}

/* The valuations below one number beside those below another: they differ from the smaller one on. */
static void wide_comparisons(void) {
    static uint32_t words[3 * (VARS + 2)], others[LEN(words)];
    uint32_t number[HOUAYLETAN_COUNT_WORDS], higher[HOUAYLETAN_COUNT_WORDS];
    for (uint32_t i = 0; i < VARS; i = next_edge(i)) {
        for (uint32_t j = i + 1; j <= VARS; j = next_edge(j)) {
            sum_of((Sum){1, {i}}, number), sum_of((Sum){2, {i, j}}, higher);
            if (j == VARS) higher[i / 32] &= ~((uint32_t)1 << i % 32);
            size_t len = below(number, words), other_len = below(higher, others);
            HouayletanComparison r = compares_in(words, len, others, other_len, 4 * VARS, 0);
            expect(is_zero(r.first) && memcmp(r.both, number, sizeof number) == 0, "wide counts", "compare");
            expect(r.differ == 1 && memcmp(r.smallest, number, sizeof number) == 0, "a wide smallest", "compare");
            r = compares_in(others, other_len, words, len, 4 * VARS, 0);
            expect(is_zero(r.second) && adds_up(r.first, number, higher), "wide counts", "compare");
        }
    }
    /* the most nodes, beside themselves and beside their negation */
    static uint32_t most[3 * HOUAYLETAN_NODES], negation[3 * HOUAYLETAN_NODES];
    size_t len = longest(most);
    HouayletanComparison r = compares_in(most, len, most, len, HOUAYLETAN_NODES, 0);
    expect(r.differ == 0 && r.verdict.nodes <= HOUAYLETAN_NODES, "the most nodes beside themselves", "compare");
    houayletan_not(most, len, room, LEN(room), negation, LEN(negation));
    r = compares_in(most, len, negation, len, HOUAYLETAN_NODES, 0);
    expect(r.differ == 1 && is_zero(r.both) && is_zero(r.smallest), "the most nodes beside their negation", "compare");
}

int main(void) {
    node_files();
    settings();
    every_two();
    cuts_beside();
    refused_comparisons();
    wide_comparisons();
    for (size_t i = 0; i < OPERATIONS; i++) {
        refusals(&operations[i], 0);
        limits(&operations[i], 0);
        if (to_target(&operations[i])) refusals(&operations[i], 1), limits(&operations[i], 1);
    }
    met_targets();
    wide_counts();
    wide_targets();

    answer("validate", asks(D, LEN(D)), 0, 0);
    counts(D, LEN(D), 5, 3);
    counts(AND3, LEN(AND3), 1, 1);
    counts(FALSE3, LEN(FALSE3), 0, 0);
    counts(TRUE3, LEN(TRUE3), 8, 1);

    static const uint32_t weights[] = {0, 5, 3, 3, 5}, only_false[] = {0}, of_true[] = {0, 8}, of_and[] = {0, 1, 1, 1, 1};
    weighs(D, LEN(D), 5, weights);
    weighs(AND3, LEN(AND3), 1, of_and);
    weighs(FALSE3, LEN(FALSE3), 0, only_false);
    weighs(TRUE3, LEN(TRUE3), 8, of_true);

    static const uint32_t longer[] = {1, 0, 0, 1, 1, 1, 0, 1, 1}; /* true, in three nodes */
    static const uint32_t TRUE1[] = {1, 0, 0, 1, 1, 1};
    answers_words("reduce", asks(longer, LEN(longer)), TRUE1, LEN(TRUE1), 0);
    counts(longer, LEN(longer), 2, 2);
    answers_words("reduce", asks(D, LEN(D)), D, LEN(D), 0);
    static const uint32_t parents_first[] = {3, 0, 0, 3, 1, 1, 1, 3, 1, 2, 0, 1, 0, 3, 2};
    answers_words("reduce", asks(parents_first, LEN(parents_first)), D, LEN(D), 0);

    /* The most variables, each with its node: the longest path. */
    static uint32_t deep[3 * (VARS + 2)] = {VARS, 0, 0, VARS, 1, 1};
    for (uint32_t i = 0; i < VARS; i++) {
        uint32_t at = 3 * (2 + i);
        deep[at] = VARS - 1 - i, deep[at + 1] = 0, deep[at + 2] = i == 0 ? 1 : i + 1;
    }
    counts(deep, LEN(deep), 1, 1);
    answers_words("reduce", asks(deep, LEN(deep)), deep, LEN(deep), 0);

    /* A room and an output that are longer than asked for keep their rest: seen by answer() in every call. */
    Request q = asks(D, LEN(D));
    q.room_len += 3, q.output_len = LEN(D) + 3;
    answer("reduce", q, 0, 0);

    fill();
    houayletan_clear(room, 10, 4);
    expect(all(room, 0, 4, 0) && all(room, 4, LEN(room), FILL), "the first words", "clear");
    houayletan_clear(room, 10, SIZE_MAX);
    expect(all(room, 0, 10, 0) && all(room, 10, LEN(room), FILL), "no more than there are", "clear");

    static const uint32_t NOT_D[] = {3, 0, 0, 3, 1, 1, 2, 1, 0, 1, 2, 0, 0, 2, 3};
    answers_words("not", asks(D, LEN(D)), NOT_D, LEN(NOT_D), 0);
    answers_words("not", asks(TRUE3, LEN(TRUE3)), FALSE3, LEN(FALSE3), 0);
    answers_words("not", asks(FALSE3, LEN(FALSE3)), TRUE3, LEN(TRUE3), 0);

    static const uint32_t TRUE0[] = {0, 0, 0, 0, 1, 1};
    static const struct {
        const char *name;
        const uint32_t *words;
        size_t len;
        uint64_t value;
    } queries[] = {
        {"size", D, LEN(D), 5}, {"num_vars", D, LEN(D), 3},
        {"is_true", D, LEN(D), 0}, {"is_true", TRUE3, LEN(TRUE3), 1}, {"is_true", longer, LEN(longer), 0},
        {"is_false", FALSE3, LEN(FALSE3), 1}, {"is_false", D, LEN(D), 0},
        {"is_clause", AND3, LEN(AND3), 1}, {"is_clause", D, LEN(D), 0}, {"is_clause", TRUE3, LEN(TRUE3), 1},
        {"is_clause", FALSE3, LEN(FALSE3), 0}, {"is_clause", longer, LEN(longer), 0},
        {"is_valuation", AND3, LEN(AND3), 1}, {"is_valuation", TRUE3, LEN(TRUE3), 0}, {"is_valuation", deep, LEN(deep), 1},
        {"is_valuation", TRUE0, LEN(TRUE0), 1},
    };
    for (size_t i = 0; i < LEN(queries); i++) {
        Reply r = answer(queries[i].name, asks(queries[i].words, queries[i].len), 0, 0);
        expect(r.value[0] == queries[i].value, "the answer", queries[i].name);
    }
    answer("size_per_variable", asks(D, LEN(D)), 0, 0);
    expect(output[0] == 1 && output[1] == 1 && output[2] == 1, "D's sizes", "size_per_variable");

    /* Cuts of D: C3 to C12 of document 01, and lists and targets that are refused. */
    static const uint32_t C3[] = {3, 0, 0, 3, 1, 1, 1, 0, 1, 0, 0, 2}, C4[] = {3, 0, 0, 3, 1, 1, 2, 0, 1, 0, 2, 0};
    static const uint32_t C5[] = {3, 0, 0, 3, 1, 1, 2, 0, 1, 0, 2, 1};
    static const struct {
        const char *name;
        size_t list_len;
        uint32_t argument[3]; /* a list, or a target's first words */
        uint32_t number;
        size_t place;
        const uint32_t *words;
        size_t len, trials;
    } cuts[] = {
        {"underapproximate", 1, {2}, 0, 0, C3, LEN(C3), 0},
        {"underapproximate", 1, {3}, 0, 0, C4, LEN(C4), 0},
        {"overapproximate", 1, {3}, 0, 0, C5, LEN(C5), 0},
        {"underapproximate", 1, {4}, 0, 0, FALSE3, LEN(FALSE3), 0},
        {"overapproximate", 1, {4}, 0, 0, TRUE3, LEN(TRUE3), 0},
        {"underapproximate", 2, {0, 4}, 14, 0, NULL, 0, 0},
        {"overapproximate", 2, {0, 4}, 14, 0, NULL, 0, 0},
        {"underapproximate", 3, {4, 1, 0}, 14, 1, NULL, 0, 0},
        {"overapproximate", 3, {4, 1, 0}, 14, 1, NULL, 0, 0},
        {"underapproximate", 0, {0}, 0, 0, D, LEN(D), 0},
        {"underapproximate", 1, {0}, 14, 0, NULL, 0, 0},
        {"underapproximate", 3, {2, 1, 0}, 14, 1, NULL, 0, 0},
        {"overapproximate", 2, {2, 9}, 13, 1, NULL, 0, 0},
        {"overapproximate", 3, {4, 0, 5}, 13, 2, NULL, 0, 0},
        {"underapproximate_to_size", 0, {4}, 0, 0, C4, LEN(C4), 2},
        {"underapproximate_to_size", 0, {3}, 0, 0, FALSE3, LEN(FALSE3), 2},
        {"underapproximate_to_size", 0, {5}, 0, 0, D, LEN(D), 0},
        {"underapproximate_to_size", 0, {0}, 18, 0, NULL, 0, 0},
        {"underapproximate_to_size", 0, {1}, 0, 0, FALSE3, LEN(FALSE3), 0},
        {"underapproximate_to_size", 0, {2}, 0, 0, FALSE3, LEN(FALSE3), 0},
        {"overapproximate_to_size", 0, {4}, 0, 0, C5, LEN(C5), 2},
        {"overapproximate_to_size", 0, {0}, 18, 0, NULL, 0, 0},
        {"overapproximate_to_size", 0, {1}, 18, 0, NULL, 0, 0},
        {"overapproximate_to_size", 0, {2}, 0, 0, TRUE3, LEN(TRUE3), 0},
        {"overapproximate_to_size", 0, {UINT32_MAX}, 0, 0, D, LEN(D), 0},
        {"underapproximate_to_cardinality", 0, {4}, 0, 0, C4, LEN(C4), 1},
        {"underapproximate_to_cardinality", 0, {1}, 0, 0, FALSE3, LEN(FALSE3), 1},
        {"underapproximate_to_cardinality", 0, {0}, 0, 0, FALSE3, LEN(FALSE3), 0},
        {"underapproximate_to_cardinality", 0, {5}, 0, 0, D, LEN(D), 0},
        {"overapproximate_to_cardinality", 0, {8}, 0, 0, TRUE3, LEN(TRUE3), 0},
        {"overapproximate_to_cardinality", 0, {5}, 0, 0, D, LEN(D), 0},
        {"overapproximate_to_cardinality", 0, {9}, 16, 0, NULL, 0, 0},
        {"overapproximate_to_cardinality", 0, {0, 1}, 16, 0, NULL, 0, 0},
    };
    /* C11: all weights are equal, the root goes first. */
    q = asks(AND3, LEN(AND3));
    q.target[0] = 4;
    answers_words("underapproximate_to_size", q, FALSE3, LEN(FALSE3), 2);
    for (size_t i = 0; i < LEN(cuts); i++) {
        q = asks(D, LEN(D));
        q.list = cuts[i].argument, q.list_len = cuts[i].list_len;
        memcpy(q.target, cuts[i].argument, sizeof cuts[i].argument);
        answers_either_way(cuts[i].name, q, cuts[i].number, cuts[i].place, cuts[i].words, cuts[i].len, cuts[i].trials);
    }
    /* Where two readings of the rules are possible: words, a list or a target, and what comes out. */
    static const struct {
        const char *name;
        size_t len;
        uint32_t words[12];
        size_t list_len;
        uint32_t argument[2];
        uint32_t number;
        size_t place, result_len;
        uint32_t result[9];
        size_t trials;
    } readings[] = {
        /* past the nodes is refused though the root is listed, and before a terminal, which is refused also where it is the root */
        {"underapproximate", 6, {0, 0, 0, 0, 1, 1}, 2, {1, 2}, 13, 1, 0, {0}, 0},
        {"underapproximate", 3, {0, 0, 0}, 1, {0}, 14, 0, 0, {0}, 0},
        {"overapproximate", 3, {0, 0, 0}, 1, {0}, 14, 0, 0, {0}, 0},
        {"underapproximate", 3, {0, 0, 0}, 1, {1}, 13, 0, 0, {0}, 0},
        {"overapproximate", 3, {0, 0, 0}, 2, {0, 1}, 13, 1, 0, {0}, 0},
        {"underapproximate", 6, {0, 0, 0, 0, 1, 1}, 1, {0}, 14, 0, 0, {0}, 0},
        {"underapproximate", 6, {0, 0, 0, 0, 1, 1}, 1, {1}, 14, 0, 0, {0}, 0},
        {"overapproximate", 6, {0, 0, 0, 0, 1, 1}, 2, {1, 0}, 14, 0, 0, {0}, 0},
        /* the last cut counts, also where the same list was tried before */
        {"underapproximate_to_size", 12, {2, 0, 0, 2, 1, 1, 1, 1, 1, 0, 2, 2}, 0, {3}, 0, 0, 6, {2, 0, 0, 2, 1, 1}, 2},
        {"underapproximate_to_size", 9, {1, 0, 0, 1, 1, 1, 0, 1, 1}, 0, {2}, 0, 0, 3, {1, 0, 0}, 0},
        /* overapproximation looks at the negation's array */
        {"overapproximate_to_size", 3, {0, 0, 0}, 0, {2}, 0, 0, 3, {0, 0, 0}, 0},
        {"overapproximate_to_size", 9, {1, 0, 0, 1, 1, 1, 0, 0, 0}, 0, {2}, 0, 0, 6, {1, 0, 0, 1, 1, 1}, 0},
        /* one node is an answer from above to what holds for no valuation, whatever its array; none is an answer to nothing; the
         * diagram's own come first */
        {"overapproximate_to_size", 3, {0, 0, 0}, 0, {1}, 0, 0, 3, {0, 0, 0}, 0},
        {"overapproximate_to_size", 9, {1, 0, 0, 1, 1, 1, 0, 0, 0}, 0, {1}, 0, 0, 3, {1, 0, 0}, 0},
        {"overapproximate_to_size", 12, {2, 0, 0, 2, 1, 1, 1, 0, 0, 0, 2, 0}, 0, {1}, 0, 0, 3, {2, 0, 0}, 0},
        {"overapproximate_to_size", 12, {2, 0, 0, 2, 1, 1, 1, 0, 1, 0, 2, 0}, 0, {1}, 18, 0, 0, {0}, 0},
        {"overapproximate_to_size", 6, {0, 0, 0, 0, 1, 1}, 0, {1}, 18, 0, 0, {0}, 0},
        {"overapproximate_to_size", 3, {0, 0, 0}, 0, {0}, 18, 0, 0, {0}, 0},
        {"underapproximate_to_size", 3, {0, 0, 0}, 0, {0}, 18, 0, 0, {0}, 0},
        {"underapproximate_to_size", 6, {0, 0, 0, 0, 1, 1}, 0, {1}, 0, 0, 3, {0, 0, 0}, 0},
        {"overapproximate_to_size", 12, {2, 0, 0, 2, 1, 1, 1, 0, 1, 1, 0, 1}, 0, {0}, 12, 2, 0, {0}, 0},
        {"overapproximate_to_size", 12, {2, 0, 0, 2, 1, 1, 1, 0, 1, 1, 0, 1}, 0, {1}, 12, 2, 0, {0}, 0},
        {"underapproximate_to_size", 12, {2, 0, 0, 2, 1, 1, 1, 0, 1, 1, 0, 1}, 0, {0}, 12, 2, 0, {0}, 0},
        /* a count of 0 gives one node; above 2^v only overapproximation refuses; constants go by the array's length */
        {"underapproximate_to_cardinality", 9, {1, 0, 0, 1, 1, 1, 0, 0, 0}, 0, {0}, 0, 0, 3, {1, 0, 0}, 0},
        {"underapproximate_to_cardinality", 6, {0, 0, 0, 0, 1, 1}, 0, {2}, 0, 0, 6, {0, 0, 0, 0, 1, 1}, 0},
        {"overapproximate_to_cardinality", 6, {0, 0, 0, 0, 1, 1}, 0, {2}, 16, 0, 0, {0}, 0},
        {"overapproximate_to_cardinality", 3, {0, 0, 0}, 0, {1}, 0, 0, 6, {0, 0, 0, 0, 1, 1}, 0},
        {"underapproximate_to_cardinality", 9, {1, 0, 0, 1, 1, 1, 0, 1, 1}, 0, {1}, 0, 0, 3, {1, 0, 0}, 1},
        {"underapproximate_to_cardinality", 6, {3, 0, 0, 3, 1, 1}, 0, {4}, 19, 0, 0, {0}, 0},
        {"overapproximate_to_cardinality", 3, {3, 0, 0}, 0, {4}, 19, 0, 0, {0}, 0},
    };
    /* The deepest array: false, and with one link to node 1 at its end not. */
    static uint32_t deepest[3 * (VARS + 2)] = {VARS, 0, 0, VARS, 1, 1, VARS - 1, 0, 0};
    for (uint32_t p = 3; p < VARS + 2; p++) deepest[3 * p] = VARS + 1 - p, deepest[3 * p + 1] = deepest[3 * p + 2] = p - 1;
    q = asks(deepest, LEN(deepest));
    q.target[0] = 1;
    answers_words("overapproximate_to_size", q, FALSE_ALL, LEN(FALSE_ALL), 0);
    q.target[0] = VARS + 2;
    answers_words("overapproximate_to_size", q, FALSE_ALL, LEN(FALSE_ALL), 0);
    answers_words("overapproximate_to_size", with_flag(q, 1), deepest, LEN(deepest), 0);
    deepest[8] = 1;
    q = asks(deepest, LEN(deepest));
    q.target[0] = 1;
    answer("overapproximate_to_size", q, 18, 0);
    answers_words("underapproximate_to_size", q, FALSE_ALL, LEN(FALSE_ALL), 0);
    for (size_t i = 0; i < LEN(readings); i++) {
        q = asks(readings[i].words, readings[i].len);
        q.list = readings[i].argument, q.list_len = readings[i].list_len;
        memcpy(q.target, readings[i].argument, sizeof readings[i].argument);
        answers_either_way(readings[i].name, q, readings[i].number, readings[i].place, readings[i].result, readings[i].result_len, readings[i].trials);
    }

    printf("C test: %d passed, %d failed\n", passed, failed);
    return failed != 0;
}
