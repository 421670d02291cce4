/* A site's conditions in one table, by the library's pool and by BuDDy, in one process: conditions of bench/site.h fill a pool, and then a script
 * of turns runs by either side: a condition is dropped, and another one, for which there is room, takes its slot.
 *
 *   ours    whole calls, with the row beside the pool. Each begins with the check of table and slots (46), which is measured by itself as a drop
 *           that is lent no row (37); add and drop then hold the row to the pool (47), measured with 46 as a drop of a slot that isn't there;
 *           an add checks the diagram too; a read leaves the room zero. The row worked out is measured by itself too. Medians.
 *   BuDDy   a condition is a counted reference to its root. Add: its array, children first, by bdd_ite of each node, the root's count kept and
 *           the others' given back. Drop: the root's count is given back; that frees nothing yet, so the time is that and bdd_gbc, which finds
 *           and frees what no reference holds and empties the caches. Read: the array by bdd_var, bdd_low and bdd_high, in the order that ours
 *           has. Row: it keeps none. The slots are worked out by bdd_support of each root; the nodes, which bdd_varprofile gives of one root
 *           alone, by a walk from all roots. Beside it bdd_varprofile of each root, which counts what they have in common for each. Medians. Then
 *           the script once more without bdd_gbc, as a mean: BuDDy collects by itself when its table is full. The table has
 *           as many nodes as the functions of its variables take, and twice as many as ours has places, or eight times.
 *
 * What BuDDy reads is held to what the pool reads, word by word, and its row to the pool's.
 *
 *     bash bench/buddy/run.sh pool [SEED] */
#include "../site.h"
#include "times.h"
#include <bdd.h>

#define TURNS 4001
#define RESERVE 256 /* conditions that take turns */
#define ROW_ONE_IN 8 /* turns after which BuDDy's row is worked out: it takes long */
#define SLOTS HOUAYLETAN_SLOTS

static uint32_t table[HOUAYLETAN_POOL(HOUAYLETAN_NODES)], slots[SLOTS];
static HouayletanSignal signals[HOUAYLETAN_VARS], worked_out[HOUAYLETAN_VARS];
static uint32_t room[HOUAYLETAN_ROOM(HOUAYLETAN_NODES)], output[3 * HOUAYLETAN_NODES];
static size_t places;
static Array conditions[RESERVE];
static size_t reserve, live, holds[SLOTS], began[SLOTS]; /* which condition a slot holds, and held at first */

/* A turn: the slot, and the condition that comes into it. */
static struct {
    size_t slot, condition;
} script[TURNS];

static HouayletanVerdict add(size_t slot, const Array *a) {
    return houayletan_pool_add(table, HOUAYLETAN_POOL(places), slots, SLOTS, signals, site_nodes.vars, a->words, a->len, slot, room, HOUAYLETAN_ROOM(a->len / 3));
}

static HouayletanVerdict drop_beside(size_t records, size_t slot) {
    return houayletan_pool_drop(table, HOUAYLETAN_POOL(places), slots, SLOTS, signals, records, slot);
}

static HouayletanVerdict drop(size_t slot) { return drop_beside(site_nodes.vars, slot); }

static HouayletanVerdict summarize(void) {
    return houayletan_pool_summarize(table, HOUAYLETAN_POOL(places), slots, SLOTS, worked_out, site_nodes.vars);
}

static void empty(void) { houayletan_pool_empty(table, HOUAYLETAN_POOL(places), slots, SLOTS, signals, site_nodes.vars, site_nodes.vars); }

static HouayletanVerdict read_slot(size_t slot) {
    return houayletan_pool_read(table, HOUAYLETAN_POOL(places), slots, SLOTS, slot, room, HOUAYLETAN_ROOM(places), output, sizeof output / 4);
}

static void begin_ours(void) {
    empty();
    for (size_t k = 0; k < live; k++) {
        holds[k] = began[k];
        if (add(k, &conditions[holds[k]]).number) stop("the conditions don't fit again");
    }
}

/* Conditions of a site until all slots are taken; those for which there is no room wait for their turn. The nodes in use. */
static size_t fill(Site *site, size_t with_places) {
    size_t used = 2;
    places = with_places, live = reserve = 0;
    empty();
    while (reserve < RESERVE) {
        Array a = next_condition(site);
        if (!a.words) break;
        conditions[reserve++] = a;
        HouayletanVerdict said = live < SLOTS ? add(live, &a) : (HouayletanVerdict){36, 0, 0, 0};
        if (said.number && said.number != 36) stop("a condition is refused");
        if (!said.number) began[live++] = reserve - 1, used = said.nodes;
    }
    return used;
}

static void let_go(void) {
    while (reserve) free(conditions[--reserve].words);
}

static bool is_held(size_t condition) {
    for (size_t k = 0; k < live; k++) {
        if (holds[k] == condition) return true;
    }
    return false;
}

/* Draws the turns, and leaves the pool as it was at first. Where nothing else fits, a slot gets its own condition again. */
static void draw_script(void) {
    begin_ours();
    for (size_t i = 0; i < TURNS; i++) {
        size_t slot = site_below((uint32_t)live), own = holds[slot], other = own;
        if (drop(slot).number) stop("a drop is refused");
        for (int tries = 0; tries < 12 && other == own; tries++) {
            size_t drawn = site_below((uint32_t)reserve);
            if (!is_held(drawn) && !add(slot, &conditions[drawn]).number) other = drawn;
        }
        if (other == own && add(slot, &conditions[own]).number) stop("a condition doesn't fit again");
        script[i].slot = slot, script[i].condition = holds[slot] = other;
    }
    begin_ours();
}

/* ---- nodes saved */

static void sharing(uint64_t seed) {
    static const struct {
        uint32_t machines, largest;
    } plants[] = {{10, 4}, {24, 8}, {40, 10}, {50, 12}};
    static Site site;
    printf("nodes that %d conditions take, both terminals once: each in an array of its own, and in one table\n\n| plant | signals | seed | apart | together | saved |\n|---|--:|--:|--:|--:|--:|\n", SLOTS);
    for (size_t i = 0; i < 2 * sizeof plants / sizeof *plants; i++) {
        for (uint64_t s = 0; s < 3; s++) {
            begin_site(&site, seed + s, plants[i / 2].machines, plants[i / 2].largest, i % 2 == 0);
            size_t together = fill(&site, HOUAYLETAN_NODES), apart = 2;
            for (size_t k = 0; k < live; k++) apart += conditions[began[k]].len / 3 - 2;
            if (live == SLOTS) {
                printf("| %s | %u | %llu | %zu | %zu | %.0f %% |\n", i % 2 ? "loose" : "close", site_nodes.vars, (unsigned long long)(seed + s), apart, together,
                       100 * (1 - (double)together / (double)apart));
            }
            let_go();
        }
    }
}

/* ---- BuDDy */

static BDD roots[SLOTS];
static unsigned long collections;

static void count_collection(int before, bddGbcStat *unused) {
    (void)unused;
    collections += before != 0;
}

static BDD build(const Array *a) {
    static BDD made[HOUAYLETAN_NODES];
    size_t n = a->len / 3;
    made[0] = bddfalse, made[1] = bddtrue;
    for (size_t p = 2; p < n; p++) {
        const uint32_t *w = a->words + 3 * p;
        made[p] = bdd_addref(bdd_ite(bdd_ithvar((int)w[0]), made[w[2]], made[w[1]]));
    }
    for (size_t p = 2; p + 1 < n; p++) bdd_delref(made[p]);
    return made[n - 1];
}

/* The places of BuDDy's nodes in the array, by their numbers: 0 where there is none yet. */
static uint32_t *their_place;
static uint32_t their_count;

static uint32_t walk(BDD f) {
    if (f == bddfalse || f == bddtrue) return f == bddtrue;
    if (their_place[f]) return their_place[f];
    uint32_t low = walk(bdd_low(f)), high = walk(bdd_high(f)), *to = output + 3 * their_count;
    to[0] = (uint32_t)bdd_var(f), to[1] = low, to[2] = high;
    return their_place[f] = their_count++;
}

static void forget(BDD f) {
    if (f == bddfalse || f == bddtrue || !their_place[f]) return;
    their_place[f] = 0;
    forget(bdd_low(f));
    forget(bdd_high(f));
}

static void read_theirs(BDD f) {
    const uint32_t v = site_nodes.vars, terminals[] = {v, 0, 0, v, 1, 1};
    memcpy(output, terminals, sizeof terminals);
    their_count = 2;
    walk(f);
    forget(f);
}

static void hold(size_t condition, size_t nodes) {
    const Array *a = &conditions[condition];
    if (nodes != a->len / 3 || memcmp(output, a->words, 4 * a->len)) stop("what is read is not what was put there");
}

/* Each node that is reached once. */
static void count_nodes(BDD f) {
    if (f == bddfalse || f == bddtrue || their_place[f]) return;
    their_place[f] = 1;
    worked_out[bdd_var(f)].nodes++;
    count_nodes(bdd_low(f));
    count_nodes(bdd_high(f));
}

static void row_of_theirs(void) {
    memset(worked_out, 0, sizeof worked_out);
    for (size_t k = 0; k < live; k++) {
        BDD support = bdd_addref(bdd_support(roots[k]));
        for (BDD f = support; f != bddtrue; f = bdd_high(f)) worked_out[bdd_var(f)].slots++;
        bdd_delref(support);
        count_nodes(roots[k]);
    }
    for (size_t k = 0; k < live; k++) forget(roots[k]);
}

static void profiles_of_theirs(void) {
    for (size_t k = 0; k < live; k++) free(bdd_varprofile(roots[k]));
}

static void hold_row(void) {
    if (memcmp(worked_out, signals, site_nodes.vars * sizeof *signals)) stop("the row is not the one kept");
}

/* A table of so many nodes, in which all conditions stand. */
static void begin_theirs(size_t nodes) {
    int room_for = (int)(nodes + 2 * site_nodes.vars + 2);
    if (bdd_init(room_for, room_for) < 0 || bdd_setvarnum((int)site_nodes.vars) < 0) stop("BuDDy doesn't begin");
    bdd_setminfreenodes(0); /* it grows only where nothing is free after it has collected */
    bdd_gbc_hook(count_collection);
    their_place = calloc((size_t)bdd_getallocnum() + 1000000, sizeof *their_place);
    if (!their_place) stop("no memory");
    for (size_t k = 0; k < live; k++) roots[k] = build(&conditions[began[k]]);
}

static void end_theirs(void) {
    bdd_done();
    free(their_place);
}

/* ---- rows */

typedef struct {
    double check[TURNS], held[TURNS], drop[TURNS], add[TURNS], read[TURNS], row[TURNS], profile[TURNS];
} Measured;

static void measure_ours(Measured *m) {
    for (size_t i = 0; i < TURNS; i++) {
        size_t slot = script[i].slot, condition = script[i].condition;
        double start = now();
        HouayletanVerdict said = drop_beside(0, SLOTS);
        m->check[i] = now() - start;
        if (said.number != 37) stop("no pool");
        start = now();
        said = drop(SLOTS);
        m->held[i] = now() - start;
        if (said.number != 33) stop("no row");
        start = now();
        said = drop(slot);
        double between = now();
        HouayletanVerdict again = add(slot, &conditions[condition]);
        double end = now();
        if (said.number || again.number) stop("a turn is refused");
        m->drop[i] = between - start, m->add[i] = end - between;
        start = now();
        said = read_slot(slot);
        m->read[i] = now() - start;
        hold(condition, said.nodes);
        start = now();
        summarize();
        m->row[i] = now() - start;
        hold_row();
    }
}

static void measure_theirs(Measured *m) {
    begin_theirs(2 * places);
    for (size_t i = 0; i < TURNS; i++) {
        size_t slot = script[i].slot, condition = script[i].condition;
        double start = now();
        bdd_delref(roots[slot]);
        bdd_gbc();
        double between = now();
        roots[slot] = build(&conditions[condition]);
        double end = now();
        m->drop[i] = between - start, m->add[i] = end - between;
        start = now();
        read_theirs(roots[slot]);
        m->read[i] = now() - start;
        hold(condition, their_count);
        if (i % ROW_ONE_IN) continue;
        start = now();
        row_of_theirs();
        m->row[i / ROW_ONE_IN] = now() - start;
        if (i + ROW_ONE_IN >= TURNS) hold_row(); /* ours has run the whole script */
        start = now();
        profiles_of_theirs();
        m->profile[i / ROW_ONE_IN] = now() - start;
    }
    end_theirs();
}

/* Turns in which it collects by itself: the mean, since few of them bear the collections; and in how many there was one. */
static double turns_of_theirs(size_t nodes, double *collected) {
    begin_theirs(nodes);
    collections = 0;
    double start = now();
    for (size_t i = 0; i < TURNS; i++) {
        bdd_delref(roots[script[i].slot]);
        roots[script[i].slot] = build(&conditions[script[i].condition]);
    }
    double time = (now() - start) / TURNS;
    *collected = 100 * (double)collections / TURNS;
    end_theirs();
    return time;
}

static void row(uint64_t seed, size_t with_places, uint32_t machines, uint32_t largest) {
    static Site site;
    static Measured ours, theirs;
    begin_site(&site, seed, machines, largest, false);
    size_t used = fill(&site, with_places), nodes = 0;
    draw_script();
    for (size_t i = 0; i < TURNS; i++) nodes += conditions[script[i].condition].len / 3;
    measure_ours(&ours);
    measure_theirs(&theirs);
    double few, many, twice = turns_of_theirs(2 * places, &few), eight = turns_of_theirs(8 * places, &many);
    double drop_ns = median(ours.drop, TURNS), add_ns = median(ours.add, TURNS), n = (double)places;
    const size_t rows = (TURNS + ROW_ONE_IN - 1) / ROW_ONE_IN;
    printf("| %zu | %zu | %zu | %u | %zu | %.1f | %.1f | %.1f | %.1f | %.1f | %.1f | %.0f, %.0f | %.1f | %.1f | %.1f | %.1f, %.1f | %.1f (%.1f %%) | %.1f (%.1f %%) |\n", places, used, live,
           site_nodes.vars, nodes / TURNS, median(ours.check, TURNS) / 1000, median(ours.held, TURNS) / 1000, drop_ns / 1000, add_ns / 1000, median(ours.read, TURNS) / 1000,
           median(ours.row, TURNS) / 1000, drop_ns / n, add_ns / n, median(theirs.drop, TURNS) / 1000, median(theirs.add, TURNS) / 1000, median(theirs.read, TURNS) / 1000,
           median(theirs.row, rows) / 1000, median(theirs.profile, rows) / 1000, twice / 1000, few, eight / 1000, many);
    fflush(stdout);
    let_go();
}

/* ---- one condition that fills the table */

/* At least k of 2k - 2 signals: k (k - 1) nodes after the terminals. */
static Array threshold(uint32_t k) {
    Function signals[2 * 64];
    site_begin(2 * k - 2);
    for (uint32_t i = 0; i < 2 * k - 2; i++) signals[i] = signal_of(i);
    return array_of(at_least(k, signals, 2 * k - 2));
}

enum { WHOLE_TURNS = 501 };

/* It is added to the empty pool; its negation is turned down for room; it is read, and dropped. */
static void whole_row(size_t with_places, uint32_t k) {
    static double added[WHOLE_TURNS], full[WHOLE_TURNS], was_read[WHOLE_TURNS], dropped[WHOLE_TURNS], theirs[3][WHOLE_TURNS];
    Array a = threshold(k), other = a;
    other.words = malloc(4 * a.len);
    if (!other.words || houayletan_not(a.words, a.len, room, sizeof room / 4, other.words, a.len).verdict.number) stop("no negation");
    places = with_places, reserve = live = 0;
    conditions[0] = a;
    empty();
    begin_theirs(2 * places);
    for (size_t i = 0; i < WHOLE_TURNS; i++) {
        double start = now();
        HouayletanVerdict said = add(9, &a);
        added[i] = now() - start;
        start = now();
        HouayletanVerdict no_room = add(8, &other);
        full[i] = now() - start;
        if (said.number || no_room.number != 36) stop("the condition doesn't fit, or more fits");
        start = now();
        said = read_slot(9);
        was_read[i] = now() - start;
        hold(0, said.nodes);
        start = now();
        said = drop(9);
        dropped[i] = now() - start;
        if (said.nodes != 2) stop("the pool isn't empty again");
        start = now();
        BDD root = build(&a);
        theirs[0][i] = now() - start;
        start = now();
        read_theirs(root);
        theirs[1][i] = now() - start;
        hold(0, their_count);
        start = now();
        bdd_delref(root);
        bdd_gbc();
        theirs[2][i] = now() - start;
    }
    end_theirs();
    double n = (double)(a.len / 3), add_ns = median(added, WHOLE_TURNS);
    printf("| %zu | %zu | %.1f | %.0f | %.1f | %.1f | %.1f | %.1f | %.1f | %.1f |\n", places, a.len / 3, add_ns / 1000, add_ns / n, median(full, WHOLE_TURNS) / 1000, median(was_read, WHOLE_TURNS) / 1000,
           median(dropped, WHOLE_TURNS) / 1000, median(theirs[0], WHOLE_TURNS) / 1000, median(theirs[1], WHOLE_TURNS) / 1000, median(theirs[2], WHOLE_TURNS) / 1000);
    free(a.words);
    free(other.words);
}

int main(int argc, char **argv) {
    uint64_t seed = argc > 1 ? strtoull(argv[1], NULL, 10) : 2026;
    printf("seed %llu, BuDDy %d.%d\n\n", (unsigned long long)seed, bdd_versionnum() / 10, bdd_versionnum() % 10);
    sharing(seed);
    printf("\n%d turns; times in µs, medians. BuDDy's drop collects. Its turns are means of a drop and an add where it collects by itself, in so many of them.\n\n", TURNS);
    printf("| places | nodes in use | conditions | signals | nodes of one | check 46 | 46 and 47 | drop | add | read | summarize | ns a place: drop, add | BuDDy: drop | add | read | row, profiles | "
           "turn, in twice the nodes | in eight times |\n|--:|--:|--:|--:|--:|--:|--:|--:|--:|--:|--:|--:|--:|--:|--:|--:|--:|--:|\n");
    row(seed, 256, 5, 3);
    row(seed, 512, 8, 4);
    row(seed, 1024, 14, 6);
    row(seed, 2048, 28, 10);
    row(seed, 4096, 50, 18);
    printf("\none condition that fills the table, at least k of 2k - 2 signals; %d turns, times in µs, medians\n\n", WHOLE_TURNS);
    printf("| places | nodes | add | ns a node | no room | read | drop | BuDDy: add | read | drop |\n|--:|--:|--:|--:|--:|--:|--:|--:|--:|--:|\n");
    whole_row(256, 16);
    whole_row(512, 23);
    whole_row(1024, 32);
    whole_row(2048, 45);
    whole_row(4096, 64);
    return 0;
}
