/* Sites: the conditions of a pumping plant as reduced arrays, from a seed. They are made to look like real ones: what is asked of a machine, that
 * it may start or that it has a fault, is said once and stands in many conditions; conditions are about a machine, or about a station of
 * machines that stand beside each other; and the plant's state stands in front of most. In a close plant there are ten stations, in a loose
 * one each condition has machines of its own. No condition is drawn twice.
 *
 * Signals, in this order: three bits of the plant's state, four sections of the supply (dead or not), and nine for each machine: ready,
 * runs, locked out, guard open, overload, pressure low, pressure high, flow, by hand. */
#ifndef SITE_H
#define SITE_H

#include "../include/houayletan.h"
#include <stdbool.h>
#include <stdio.h>
#include <stdlib.h>
#include <string.h>

static uint64_t site_state;

static inline uint64_t site_next(void) { /* splitmix64 */
    uint64_t z = site_state += 0x9e3779b97f4a7c15u;
    z = (z ^ z >> 30) * 0xbf58476d1ce4e5b9u;
    z = (z ^ z >> 27) * 0x94d049bb133111ebu;
    return z ^ z >> 31;
}

static inline uint32_t site_below(uint32_t n) { return (uint32_t)(site_next() % n); }

/* ---- reduced nodes, each once: 0 and 1 are the terminals */

#define SITE_NODES (1u << 20)
#define SITE_KEYS (1u << 21)
typedef uint32_t Function;

static struct {
    uint32_t vars, count;
    uint32_t node[SITE_NODES][3];
    uint32_t place[SITE_KEYS];                   /* 0: free; else a node */
    uint32_t asked[SITE_KEYS][3], told[SITE_KEYS]; /* of if-then-else: the last answer with this key */
} site_nodes;

static inline uint32_t site_key(uint32_t a, uint32_t b, uint32_t c) { return (a * 2654435761u ^ b * 2246822519u ^ c * 3266489917u) % SITE_KEYS; }

static inline void site_begin(uint32_t vars) {
    memset(&site_nodes, 0, sizeof site_nodes);
    site_nodes.vars = site_nodes.node[0][0] = site_nodes.node[1][0] = vars;
    site_nodes.node[1][1] = site_nodes.node[1][2] = 1;
    site_nodes.count = 2;
}

static inline Function site_node(uint32_t var, Function low, Function high) {
    if (low == high) return low;
    const uint32_t node[3] = {var, low, high};
    uint32_t at = site_key(var, low, high);
    while (site_nodes.place[at] && memcmp(site_nodes.node[site_nodes.place[at]], node, sizeof node)) at = (at + 1) % SITE_KEYS;
    if (!site_nodes.place[at]) {
        if (site_nodes.count == SITE_NODES) {
            fprintf(stderr, "site: too many nodes\n");
            exit(1);
        }
        memcpy(site_nodes.node[site_nodes.count], node, sizeof node);
        site_nodes.place[at] = site_nodes.count++;
    }
    return site_nodes.place[at];
}

static inline Function half(Function f, uint32_t var, int side) { return site_nodes.node[f][0] == var ? site_nodes.node[f][1 + side] : f; }

static inline Function if_then_else(Function f, Function g, Function h) {
    if (f < 2) return f ? g : h;
    if (g == h) return g;
    if (g == 1 && h == 0) return f;
    uint32_t at = site_key(f, g, h), *asked = site_nodes.asked[at];
    if (asked[0] == f && asked[1] == g && asked[2] == h) return site_nodes.told[at];
    uint32_t var = site_nodes.node[f][0];
    if (site_nodes.node[g][0] < var) var = site_nodes.node[g][0];
    if (site_nodes.node[h][0] < var) var = site_nodes.node[h][0];
    Function low = if_then_else(half(f, var, 0), half(g, var, 0), half(h, var, 0));
    Function high = if_then_else(half(f, var, 1), half(g, var, 1), half(h, var, 1));
    asked[0] = f, asked[1] = g, asked[2] = h;
    return site_nodes.told[at] = site_node(var, low, high);
}

static inline Function signal_of(uint32_t var) { return site_node(var, 0, 1); }
static inline Function no(Function f) { return if_then_else(f, 0, 1); }
static inline Function both(Function f, Function g) { return if_then_else(f, g, 0); }
static inline Function either(Function f, Function g) { return if_then_else(f, 1, g); }
static inline Function unlike(Function f, Function g) { return if_then_else(f, no(g), g); }

/* At least k of them hold. */
static inline Function at_least(uint32_t k, const Function *of, uint32_t count) {
    Function row[65] = {1};
    for (uint32_t i = count; i-- > 0;) {
        for (uint32_t j = k; j > 0; j--) row[j] = if_then_else(of[i], row[j - 1], row[j]);
    }
    return row[k];
}

/* ---- the plant */

enum { STATES = 3, SECTIONS = 4, BEFORE_MACHINES = STATES + SECTIONS };
enum { READY, RUNS, LOCKED, GUARD, OVERLOAD, LOW, HIGH, FLOW, HAND, OF_A_MACHINE };
enum { STATIONS = 10, MACHINES_MOST = (HOUAYLETAN_VARS - BEFORE_MACHINES) / OF_A_MACHINE };

typedef struct {
    uint32_t machines, section[MACHINES_MOST]; /* which supply a machine hangs at */
    uint32_t largest;                          /* station */
    bool close;
    struct {
        uint32_t first, size;
    } station[STATIONS]; /* its machines */
} Plant;

static inline Function of_machine(uint32_t machine, uint32_t what) { return signal_of(BEFORE_MACHINES + OF_A_MACHINE * machine + what); }
static inline Function dead(const Plant *p, uint32_t machine) { return signal_of(STATES + p->section[machine]); }

/* The interlock of a machine, which every condition about its starting has. */
static inline Function may_start(const Plant *p, uint32_t m) {
    Function stopped = either(of_machine(m, LOCKED), either(of_machine(m, GUARD), of_machine(m, OVERLOAD)));
    return both(of_machine(m, READY), both(no(stopped), both(no(of_machine(m, HIGH)), no(dead(p, m)))));
}

static inline Function has_fault(uint32_t m) {
    Function starved = both(of_machine(m, RUNS), both(of_machine(m, LOW), no(of_machine(m, FLOW))));
    return both(no(of_machine(m, LOCKED)), either(of_machine(m, OVERLOAD), either(starved, both(of_machine(m, HIGH), no(of_machine(m, HAND))))));
}

static inline Function is_quiet(uint32_t m) { return either(of_machine(m, LOCKED), both(no(of_machine(m, RUNS)), no(of_machine(m, READY)))); }

static inline Function flutters(uint32_t m) { return both(unlike(of_machine(m, FLOW), of_machine(m, HIGH)), unlike(of_machine(m, HIGH), of_machine(m, LOW))); }

static inline Function some_state(void) {
    Function x = signal_of(0), y = signal_of(1), z = signal_of(2);
    switch (site_below(5)) {
    case 0: return x;
    case 1: return both(no(x), y);
    case 2: return either(x, z);
    case 3: return unlike(y, z);
    default: return 1;
    }
}

/* What a station's machines say together: all of them, or at least k. */
static inline Function of_station(const Plant *p, uint32_t s, uint32_t kind) {
    Function each[MACHINES_MOST], outage[SECTIONS];
    uint32_t n = p->station[s].size;
    for (uint32_t i = 0; i < n; i++) {
        uint32_t m = p->station[s].first + i;
        each[i] = kind == 0 ? may_start(p, m) : kind == 1 || kind == 2 ? has_fault(m) : kind == 3 ? is_quiet(m) : flutters(m);
    }
    for (uint32_t i = 0; i < SECTIONS; i++) outage[i] = signal_of(STATES + i);
    switch (kind) {
    case 0: case 3: return at_least(n, each, n);
    case 1: return at_least(1, each, n);
    case 2: return both(no(at_least(2, outage, SECTIONS)), at_least(n < 4 ? 1 : 2 + site_below(n / 3), each, n));
    default: return at_least(n < 3 ? 1 : n / 2, each, n);
    }
}

/* Two machines up to so many as the largest station has: neighbours have machines in common. */
static inline void draw_stations(Plant *p) {
    for (uint32_t s = 0; s < STATIONS; s++) {
        uint32_t first = site_below(p->machines - 1), size = 2 + site_below(p->largest - 1);
        p->station[s].first = first;
        p->station[s].size = size < p->machines - first ? size : p->machines - first;
    }
}

static inline Plant some_plant(uint32_t machines, uint32_t largest, bool close) {
    Plant p = {.machines = machines, .largest = largest, .close = close};
    for (uint32_t m = 0; m < machines; m++) p.section[m] = site_below(SECTIONS);
    draw_stations(&p);
    return p;
}

static inline Function some_condition(Plant *p) {
    if (!p->close) draw_stations(p);
    uint32_t m = site_below(p->machines), s = site_below(STATIONS);
    switch (site_below(8)) {
    case 0: return both(some_state(), may_start(p, m));
    case 1: return both(some_state(), both(has_fault(m), no(dead(p, m))));
    case 2: return both(some_state(), of_station(p, s, 0));
    case 3: return both(some_state(), of_station(p, s, 1));
    case 4: return of_station(p, s, 2);
    case 5: return both(some_state(), of_station(p, s, 3));
    case 6: return both(no(signal_of(1)), of_station(p, s, 4));
    default: return both(of_station(p, s, 1), no(of_station(p, (s + 1) % STATIONS, 3)));
    }
}

/* ---- arrays */

typedef struct {
    uint32_t *words;
    size_t len;
} Array;

static uint32_t site_place[SITE_NODES], site_order[HOUAYLETAN_NODES], site_met;

/* Numbers what has no place yet, on the way back, low branch first. False where there are too many. */
static inline bool site_number(Function f) {
    if (f < 2 || site_place[f]) return true;
    if (!site_number(site_nodes.node[f][1]) || !site_number(site_nodes.node[f][2]) || site_met + 2 == HOUAYLETAN_NODES) return false;
    site_order[site_met] = f;
    site_place[f] = 2 + site_met++;
    return true;
}

/* The reduced array; nothing where it has more nodes than are taken. To be freed. */
static inline Array array_of(Function f) {
    Array a = {NULL, 0};
    site_met = 0;
    site_place[0] = 0, site_place[1] = 1;
    if (site_number(f)) {
        const uint32_t v = site_nodes.vars, terminals[] = {v, 0, 0, v, 1, 1};
        a.len = f == 0 ? 3 : 6 + 3 * (size_t)site_met;
        a.words = malloc(4 * (a.len < 6 ? 6 : a.len));
        if (!a.words) exit(2);
        memcpy(a.words, terminals, sizeof terminals);
        for (uint32_t i = 0; i < site_met; i++) {
            const uint32_t *node = site_nodes.node[site_order[i]];
            uint32_t *to = a.words + 6 + 3 * i;
            to[0] = node[0], to[1] = site_place[node[1]], to[2] = site_place[node[2]];
        }
    }
    for (uint32_t i = 0; i < site_met; i++) site_place[site_order[i]] = 0;
    return a;
}

/* A site: a seed, a plant of so many machines, and its conditions as they are drawn, none twice and none of hardly any nodes. */
typedef struct {
    Plant plant;
    Function drawn[4096];
    uint32_t count;
} Site;

static inline void begin_site(Site *s, uint64_t seed, uint32_t machines, uint32_t largest, bool close) {
    site_state = seed;
    site_begin(BEFORE_MACHINES + OF_A_MACHINE * machines);
    s->plant = some_plant(machines, largest, close);
    s->count = 0;
}

static inline bool is_drawn(const Site *s, Function f) {
    for (uint32_t i = 0; i < s->count; i++) {
        if (s->drawn[i] == f) return true;
    }
    return false;
}

/* Nothing where many draws give none that is new: a small plant has no more. */
static inline Array next_condition(Site *s) {
    for (int draws = 0; draws < 2000 && s->count < sizeof s->drawn / sizeof s->drawn[0]; draws++) {
        Function f = some_condition(&s->plant);
        if (is_drawn(s, f)) continue;
        s->drawn[s->count++] = f;
        Array a = array_of(f);
        if (a.len >= 3 * 8) return a;
        free(a.words);
    }
    return (Array){NULL, 0};
}

#endif
