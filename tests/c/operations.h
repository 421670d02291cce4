/* Every operation of include/houayletan.h in one table, so that the test programs can go through all of them. */
#ifndef OPERATIONS_H
#define OPERATIONS_H

#include "../../include/houayletan.h"
#include <stdbool.h>
#include <string.h>

typedef struct {
    const uint32_t *words;
    size_t words_len;
    const uint32_t *list; /* of a cut by a list */
    size_t list_len;
    uint32_t target[HOUAYLETAN_COUNT_WORDS]; /* of a cut to a count; word 0 alone of a cut to a size */
    uint32_t as_is;                          /* of both */
    uint32_t *room;
    size_t room_len;
    uint32_t *output;
    size_t output_len;
} Request;

typedef struct {
    HouayletanVerdict verdict;
    size_t values;                          /* how many values stand beside the verdict */
    uint64_t value[HOUAYLETAN_COUNT_WORDS]; /* the words of a count, the bits of a double, an amount, a yes as 1, or nodes and trials */
    size_t written;                         /* words of the output that hold the result, where it is accepted */
} Reply;

typedef enum { NO_OUTPUT, DIAGRAM, WEIGHTS, VARIABLES } Output;
typedef enum { NO_ARGUMENT, LIST, SIZE_TARGET, COUNT_TARGET } Argument;

#define IN q->words, q->words_len
#define ROOM q->room, q->room_len
#define OUT q->output, q->output_len

static void reply_count(HouayletanCount a, Reply *r) {
    r->verdict = a.verdict;
    r->values = HOUAYLETAN_COUNT_WORDS;
    for (int i = 0; i < HOUAYLETAN_COUNT_WORDS; i++) r->value[i] = a.count[i];
}

static void reply_float(HouayletanFloat a, Reply *r) {
    r->verdict = a.verdict;
    r->values = 1;
    memcpy(&r->value[0], &a.count, sizeof a.count);
}

static void reply_amount(HouayletanAmount a, Reply *r) {
    r->verdict = a.verdict;
    r->values = 1;
    r->value[0] = a.amount;
}

static void reply_diagram(HouayletanDiagram a, Reply *r) {
    r->verdict = a.verdict;
    r->values = 1;
    r->value[0] = a.nodes;
    r->written = 3 * a.nodes;
}

static void reply_approximation(HouayletanApproximation a, Reply *r) {
    r->verdict = a.verdict;
    r->values = 2;
    r->value[0] = a.nodes;
    r->value[1] = a.trials;
    r->written = 3 * a.nodes;
}

static HouayletanNatural target_of(const Request *q) {
    HouayletanNatural t;
    memcpy(t.words, q->target, sizeof t.words);
    return t;
}

static void on_validate(const Request *q, Reply *r) { r->verdict = houayletan_validate(IN, ROOM); }
static void on_exact_cardinality(const Request *q, Reply *r) { reply_count(houayletan_exact_cardinality(IN, ROOM), r); }
static void on_exact_clause_cardinality(const Request *q, Reply *r) { reply_count(houayletan_exact_clause_cardinality(IN, ROOM), r); }
static void on_cardinality(const Request *q, Reply *r) { reply_float(houayletan_cardinality(IN, ROOM), r); }
static void on_size(const Request *q, Reply *r) { reply_amount(houayletan_size(IN, ROOM), r); }
static void on_num_vars(const Request *q, Reply *r) { reply_amount(houayletan_num_vars(IN, ROOM), r); }
static void on_is_true(const Request *q, Reply *r) { reply_amount(houayletan_is_true(IN, ROOM), r); }
static void on_is_false(const Request *q, Reply *r) { reply_amount(houayletan_is_false(IN, ROOM), r); }
static void on_is_clause(const Request *q, Reply *r) { reply_amount(houayletan_is_clause(IN, ROOM), r); }
static void on_is_valuation(const Request *q, Reply *r) { reply_amount(houayletan_is_valuation(IN, ROOM), r); }
static void on_size_per_variable(const Request *q, Reply *r) {
    r->verdict = houayletan_size_per_variable(IN, ROOM, OUT);
    r->written = r->verdict.vars;
}
static void on_node_valuation_weights(const Request *q, Reply *r) {
    r->verdict = houayletan_node_valuation_weights(IN, ROOM, OUT);
    r->written = HOUAYLETAN_WEIGHTS(r->verdict.nodes);
}
static void on_count_and_weights(const Request *q, Reply *r) {
    reply_count(houayletan_count_and_weights(IN, ROOM, OUT), r);
    r->written = HOUAYLETAN_WEIGHTS(r->verdict.nodes);
}
static void on_reduce(const Request *q, Reply *r) { reply_diagram(houayletan_reduce(IN, ROOM, OUT), r); }
static void on_not(const Request *q, Reply *r) { reply_diagram(houayletan_not(IN, ROOM, OUT), r); }
static void on_underapproximate(const Request *q, Reply *r) {
    reply_diagram(houayletan_underapproximate(IN, q->list, q->list_len, ROOM, OUT), r);
}
static void on_overapproximate(const Request *q, Reply *r) {
    reply_diagram(houayletan_overapproximate(IN, q->list, q->list_len, ROOM, OUT), r);
}
static void on_underapproximate_to_size(const Request *q, Reply *r) {
    reply_approximation(houayletan_underapproximate_to_size(IN, q->target[0], q->as_is, ROOM, OUT), r);
}
static void on_overapproximate_to_size(const Request *q, Reply *r) {
    reply_approximation(houayletan_overapproximate_to_size(IN, q->target[0], q->as_is, ROOM, OUT), r);
}
static void on_underapproximate_to_cardinality(const Request *q, Reply *r) {
    reply_approximation(houayletan_underapproximate_to_cardinality(IN, target_of(q), q->as_is, ROOM, OUT), r);
}
static void on_overapproximate_to_cardinality(const Request *q, Reply *r) {
    reply_approximation(houayletan_overapproximate_to_cardinality(IN, target_of(q), q->as_is, ROOM, OUT), r);
}

#undef IN
#undef ROOM
#undef OUT

typedef struct {
    const char *name;
    Output output;
    Argument argument;
    void (*call)(const Request *, Reply *);
} Operation;

#define OPERATION(name, output, argument) {#name, output, argument, on_##name}
static const Operation operations[] = {
    OPERATION(validate, NO_OUTPUT, NO_ARGUMENT),
    OPERATION(exact_cardinality, NO_OUTPUT, NO_ARGUMENT),
    OPERATION(exact_clause_cardinality, NO_OUTPUT, NO_ARGUMENT),
    OPERATION(cardinality, NO_OUTPUT, NO_ARGUMENT),
    OPERATION(size, NO_OUTPUT, NO_ARGUMENT),
    OPERATION(num_vars, NO_OUTPUT, NO_ARGUMENT),
    OPERATION(is_true, NO_OUTPUT, NO_ARGUMENT),
    OPERATION(is_false, NO_OUTPUT, NO_ARGUMENT),
    OPERATION(is_clause, NO_OUTPUT, NO_ARGUMENT),
    OPERATION(is_valuation, NO_OUTPUT, NO_ARGUMENT),
    OPERATION(size_per_variable, VARIABLES, NO_ARGUMENT),
    OPERATION(node_valuation_weights, WEIGHTS, NO_ARGUMENT),
    OPERATION(count_and_weights, WEIGHTS, NO_ARGUMENT),
    OPERATION(reduce, DIAGRAM, NO_ARGUMENT),
    OPERATION(not, DIAGRAM, NO_ARGUMENT),
    OPERATION(underapproximate, DIAGRAM, LIST),
    OPERATION(overapproximate, DIAGRAM, LIST),
    OPERATION(underapproximate_to_size, DIAGRAM, SIZE_TARGET),
    OPERATION(overapproximate_to_size, DIAGRAM, SIZE_TARGET),
    OPERATION(underapproximate_to_cardinality, DIAGRAM, COUNT_TARGET),
    OPERATION(overapproximate_to_cardinality, DIAGRAM, COUNT_TARGET),
};
#define OPERATIONS (sizeof operations / sizeof operations[0])

static inline Reply call(const Operation *o, const Request *q) {
    Reply r;
    memset(&r, 0, sizeof r);
    o->call(q, &r);
    return r;
}

/* Whether it cuts to a target, and so takes an as_is. */
static inline bool to_target(const Operation *o) { return o->argument == SIZE_TARGET || o->argument == COUNT_TARGET; }

static inline const Operation *operation(const char *name) {
    for (size_t i = 0; i < OPERATIONS; i++) {
        if (strcmp(operations[i].name, name) == 0) return &operations[i];
    }
    return NULL;
}

/* The words that an operation asks of its output for n nodes. */
static inline size_t output_asked(Output o, size_t n) {
    switch (o) {
    case DIAGRAM: return HOUAYLETAN_OUTPUT(n);
    case WEIGHTS: return HOUAYLETAN_WEIGHTS(n);
    case VARIABLES: return HOUAYLETAN_VARS;
    default: return 0;
    }
}

#endif
