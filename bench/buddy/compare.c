/* Two diagrams compared by the library, and the same two functions compared by BuDDy: xor and the count of its valuations. Both in
 * one process, in turns, and the medians of many rounds.
 *
 *   ours    the whole call of houayletan_compare: both checks, the pairs, the counts of first only, second only and both, the smallest
 *           difference, and the clearing of room and table. The table is as long as the pairs need, not a word longer.
 *   BuDDy   bdd_apply(.., bddop_xor) and bdd_satcountset of what it gives: how many valuations differ, as a double. The two functions are
 *           built before, from the reduced arrays. Before each call, outside the time, the last result is let go and bdd_gbc frees its nodes
 *           and empties all caches. As many nodes, or four times as many, in place of twice make no clear difference; larger caches make it
 *           slower where pairs are many.
 *   three   the same for the counts that ours gives: bddop_diff one way and the other, bddop_and, and bdd_satcountset of each.
 *
 *     bash bench/buddy/run.sh [SEED] */
#include "../../include/houayletan.h"
#include "times.h"
#include <bdd.h>
#include <math.h>
#include <stdbool.h>
#include <string.h>

#define ROUNDS 41
#define PAIRS_MOST 250000

static uint64_t state;

static uint64_t next(void) { /* splitmix64 */
    uint64_t z = state += 0x9e3779b97f4a7c15u;
    z = (z ^ z >> 30) * 0xbf58476d1ce4e5b9u;
    z = (z ^ z >> 27) * 0x94d049bb133111ebu;
    return z ^ z >> 31;
}

static size_t below(size_t n) { return (size_t)(next() % n); }

typedef struct {
    uint32_t words[3 * HOUAYLETAN_NODES];
    size_t len;
} Diagram;

static uint32_t room[HOUAYLETAN_ROOM(HOUAYLETAN_NODES)];
static uint32_t *table;

/* ---- diagrams */

/* Keeps the nodes that the root reaches. */
static void prune(Diagram *d) {
    static uint32_t place[HOUAYLETAN_NODES];
    size_t n = d->len / 3, kept = 0;
    memset(place, 0, sizeof place);
    place[0] = place[1] = place[n - 1] = 1;
    /* children stand before their parents */
    for (size_t p = n; p-- > 2;) {
        if (place[p]) place[d->words[3 * p + 1]] = place[d->words[3 * p + 2]] = 1;
    }
    for (size_t p = 0; p < n; p++) {
        if (!place[p]) continue;
        uint32_t *to = d->words + 3 * kept;
        const uint32_t *from = d->words + 3 * p;
        to[0] = from[0];
        to[1] = p < 2 ? (uint32_t)p : place[from[1]];
        to[2] = p < 2 ? (uint32_t)p : place[from[2]];
        place[p] = (uint32_t)kept++;
    }
    d->len = 3 * kept;
}

static void reduce(Diagram *d) {
    static uint32_t output[3 * HOUAYLETAN_NODES];
    HouayletanDiagram r = houayletan_reduce(d->words, d->len, room, sizeof room / 4, output, sizeof output / 4);
    if (r.verdict.number) stop("a diagram is refused");
    d->len = 3 * r.nodes;
    memcpy(d->words, output, 4 * d->len);
}

/* So many nodes at each variable, the last one at variable 0; links to the next variables' nodes, one in sixteen to a terminal. */
static void layers(Diagram *d, uint32_t vars, size_t width) {
    const uint32_t ends[6] = {vars, 0, 0, vars, 1, 1};
    memcpy(d->words, ends, sizeof ends);
    size_t n = 2;
    for (uint32_t v = vars; v-- > 0;) {
        size_t of_this = v == 0 ? 1 : width, from = n > 2 + 2 * width ? n - 2 * width : 2;
        for (size_t i = 0; i < of_this; i++, n++) {
            if (n == HOUAYLETAN_NODES) stop("too wide");
            uint32_t *to = d->words + 3 * n;
            to[0] = v;
            for (int side = 1; side < 3; side++) {
                size_t start = n - i; /* of this variable's nodes */
                bool ends_here = start == 2 || below(16) == 0;
                to[side] = (uint32_t)(ends_here ? below(2) : from + below(start - from));
            }
        }
    }
    d->len = 3 * n;
    prune(d);
    reduce(d);
}

/* The same diagram with some links sent to terminals. */
static void changed(Diagram *d, const Diagram *of, size_t changes) {
    *d = *of;
    for (size_t k = 0; k < changes; k++) {
        size_t p = 2 + below(d->len / 3 - 2);
        uint32_t *link = d->words + 3 * p + 1 + below(2);
        *link = (uint32_t)below(2);
    }
    prune(d);
    reduce(d);
}

/* ---- BuDDy */

/* The same function: reduced arrays have each child before its parents. */
static BDD build(const Diagram *d) {
    static BDD made[HOUAYLETAN_NODES];
    size_t n = d->len / 3;
    made[0] = bddfalse, made[1] = bddtrue;
    for (size_t p = 2; p < n; p++) {
        const uint32_t *w = d->words + 3 * p;
        made[p] = bdd_addref(bdd_ite(bdd_ithvar((int)w[0]), made[w[2]], made[w[1]]));
    }
    for (size_t p = 2; p + 1 < n; p++) bdd_delref(made[p]);
    return made[n - 1];
}

static HouayletanComparison compare(const Diagram *a, const Diagram *b, size_t pairs) {
    return houayletan_compare(a->words, a->len, b->words, b->len, room, sizeof room / 4, table, HOUAYLETAN_TABLE(pairs));
}

static double as_double(const uint32_t *count) {
    double x = 0;
    for (int i = HOUAYLETAN_COUNT_WORDS; i-- > 0;) x = x * 4294967296.0 + count[i];
    return x;
}

/* Both must say how many valuations differ. */
static void hold(const HouayletanComparison *r, double theirs) {
    double ours = as_double(r->first) + as_double(r->second);
    if (fabs(ours - theirs) > 1e-9 * ours) stop("the two don't agree");
}

/* How many valuations hold in one only, in the other only and in both: the time in ns. */
static double three_counts(BDD x, BDD y, BDD all, const HouayletanComparison *r) {
    const struct { BDD first, second; int op; const uint32_t *count; } asked[] = {
        {x, y, bddop_diff, r->first}, {y, x, bddop_diff, r->second}, {x, y, bddop_and, r->both}};
    double time = 0;
    for (int i = 0; i < 3; i++) {
        bdd_gbc();
        double start = now();
        BDD z = bdd_addref(bdd_apply(asked[i].first, asked[i].second, asked[i].op));
        double count = bdd_satcountset(z, all), ours = as_double(asked[i].count);
        time += now() - start;
        if (fabs(ours - count) > 1e-9 * ours) stop("the two don't agree on a count");
        bdd_delref(z);
    }
    return time;
}

static void row(const char *family, const Diagram *a, const Diagram *b) {
    HouayletanComparison r = compare(a, b, PAIRS_MOST);
    if (r.verdict.number) stop("a comparison is refused");
    size_t pairs = r.verdict.nodes;
    int vars = (int)r.verdict.vars;
    /* Twice the nodes that it can make, so that it never collects while it is measured, and a cache entry for each pair. */
    int nodes = 2 * (int)(pairs + a->len + b->len) + 10000;
    if (bdd_init(nodes, (int)pairs + 1000) < 0) stop("BuDDy doesn't begin");
    bdd_gbc_hook(NULL);
    if (bdd_setvarnum(vars) < 0) stop("too many variables for BuDDy");
    BDD x = build(a), y = build(b), all = bddtrue;
    for (int v = vars; v-- > 0;) all = bdd_addref(bdd_and(all, bdd_ithvar(v)));
    double ours[ROUNDS], apply[ROUNDS], count[ROUNDS], both[ROUNDS], three[ROUNDS];
    int made = 0;
    for (int i = 0; i < ROUNDS; i++) {
        double start = now();
        r = compare(a, b, pairs);
        ours[i] = now() - start;
        bdd_gbc();
        start = now();
        BDD z = bdd_addref(bdd_apply(x, y, bddop_xor));
        double between = now();
        double valuations = bdd_satcountset(z, all);
        double end = now();
        apply[i] = between - start, count[i] = end - between, both[i] = end - start;
        made = bdd_nodecount(z);
        hold(&r, valuations);
        bdd_delref(z);
        three[i] = three_counts(x, y, all, &r);
    }
    bdd_done();
    double ns = median(ours, ROUNDS), theirs = median(both, ROUNDS);
    double of_pair = 1 / (double)pairs;
    printf("| %s (%d) | %zu, %zu | %zu | %.1f | %.1f | %.0f | %.0f (%.0f, %.0f) | %.0f | %d | %.2f |\n", family, vars, a->len / 3, b->len / 3, pairs,
           ns / 1000, theirs / 1000, ns * of_pair, theirs * of_pair, median(apply, ROUNDS) * of_pair, median(count, ROUNDS) * of_pair,
           median(three, ROUNDS) * of_pair, made, ns / theirs);
    fflush(stdout);
}

int main(int argc, char **argv) {
    static Diagram a, b;
    uint64_t seed = argc > 1 ? strtoull(argv[1], NULL, 10) : 2026;
    table = calloc(HOUAYLETAN_TABLE(PAIRS_MOST), 4);
    if (!table) stop("no memory");
    printf("seed %llu, BuDDy %d.%d; times are medians of %d rounds\n\n", (unsigned long long)seed, bdd_versionnum() / 10, bdd_versionnum() % 10, ROUNDS);
    printf("| family (variables) | nodes | pairs | ours, µs | BuDDy, µs | ours, ns a pair | BuDDy (xor, count) | BuDDy, three counts | nodes of the xor | ours / BuDDy |\n"
           "|---|--:|--:|--:|--:|--:|--:|--:|--:|--:|\n");
    const struct { uint32_t vars; size_t width; } shapes[] = {{48, 4}, {48, 16}, {48, 57}, {255, 2}, {255, 5}, {255, 15}, {511, 2}, {511, 3}, {511, 7}};
    for (size_t i = 0; i < sizeof shapes / sizeof *shapes; i++) {
        state = seed + i;
        layers(&a, shapes[i].vars, shapes[i].width);
        layers(&b, shapes[i].vars, shapes[i].width);
        row("unlike", &a, &b);
    }
    const struct { uint32_t vars; size_t width, changes; } alike[] = {{48, 20, 1}, {48, 80, 1}, {48, 80, 40}, {255, 15, 1}, {255, 15, 40}, {511, 7, 40}};
    for (size_t i = 0; i < sizeof alike / sizeof *alike; i++) {
        state = seed + 100 + i;
        layers(&a, alike[i].vars, alike[i].width);
        changed(&b, &a, alike[i].changes);
        row("alike", &a, &b);
    }
    return 0;
}
