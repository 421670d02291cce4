/* Lent buffers with guard words around them, and what every call must leave in them. */
#ifndef LENT_H
#define LENT_H

#include "operations.h"
#include <stdio.h>
#include <stdlib.h>

typedef struct {
    uint32_t *all; /* guard words, the buffer, guard words */
    uint32_t *words;
    size_t len, guard;
    uint32_t seed;
} Lent;

/* What stands at place i of a buffer at first. */
static inline uint32_t filling(uint32_t seed, size_t i) { return seed + (uint32_t)i * 2654435761u; }

static inline uint32_t guarding(const Lent *l, size_t i) { return ~filling(l->seed, i) ^ 0x5A5A5A5Au; }

/* A buffer of its own length, so that a memory checker sees the first word beyond it where guard is 0. */
static inline Lent lend(size_t len, uint32_t seed, size_t guard) {
    Lent l = {malloc(4 * (len + 2 * guard) + 1), NULL, len, guard, seed};
    if (!l.all) {
        fprintf(stderr, "no memory\n");
        exit(2);
    }
    l.words = l.all + guard;
    for (size_t i = 0; i < guard; i++) {
        l.all[i] = guarding(&l, i);
        l.words[len + i] = guarding(&l, guard + i);
    }
    for (size_t i = 0; i < len; i++) l.words[i] = filling(seed, i);
    return l;
}

static inline Lent lend_copy(const uint32_t *words, size_t len, uint32_t seed, size_t guard) {
    Lent l = lend(len, seed, guard);
    if (len) memcpy(l.words, words, 4 * len);
    return l;
}

static inline bool guarded(const Lent *l) {
    for (size_t i = 0; i < l->guard; i++) {
        if (l->all[i] != guarding(l, i) || l->words[l->len + i] != guarding(l, l->guard + i)) return false;
    }
    return true;
}

static inline bool kept_from(const Lent *l, size_t from) {
    for (size_t i = from; i < l->len; i++) {
        if (l->words[i] != filling(l->seed, i)) return false;
    }
    return true;
}

static inline bool zero_until(const Lent *l, size_t to) {
    for (size_t i = 0; i < to; i++) {
        if (l->words[i]) return false;
    }
    return true;
}

/* How many words of the room a check leaves zero, of a diagram of so many words: none where it is refused 5 or before. */
static inline size_t zeroed(uint32_t number, size_t len) { return number >= 1 && number <= 5 ? 0 : HOUAYLETAN_ROOM(len / 3); }

typedef struct {
    Lent words, list, room, output;
} Loan;

static inline Loan loan(const uint32_t *words, size_t words_len, const uint32_t *list, size_t list_len, size_t room_len,
                        size_t output_len, uint32_t seed, size_t guard) {
    return (Loan){lend_copy(words, words_len, seed + 1, guard), lend_copy(list, list_len, seed + 2, guard),
                  lend(room_len, seed, guard), lend(output_len, seed + 3, guard)};
}

static inline void give_back(Loan *l) {
    free(l->words.all);
    free(l->list.all);
    free(l->room.all);
    free(l->output.all);
}

static inline Request request_of(const Loan *l, const uint32_t *target, uint32_t as_is) {
    Request q = {l->words.words, l->words.len, l->list.words, l->list.len, {0}, as_is, l->room.words, l->room.len, l->output.words, l->output.len};
    if (target) memcpy(q.target, target, sizeof q.target);
    return q;
}

/* NULL, or what a call has done wrong to what it was lent, or to a refused result. words and list are what was copied in. */
static inline const char *wrong(const Loan *l, const Reply *r, const uint32_t *words, const uint32_t *list) {
    if (!guarded(&l->words) || !guarded(&l->list) || !guarded(&l->room) || !guarded(&l->output)) return "a guard word has changed";
    if (l->words.len && memcmp(l->words.words, words, 4 * l->words.len)) return "the input has changed";
    if (l->list.len && memcmp(l->list.words, list, 4 * l->list.len)) return "the list has changed";
    uint32_t number = r->verdict.number;
    size_t zero = zeroed(number, l->words.len);
    if (zero > l->room.len) return "the room was too short for this answer";
    if (!zero_until(&l->room, zero)) return "the room is not zero";
    if (!kept_from(&l->room, zero)) return "the rest of the room has changed";
    if (r->written > l->output.len) return "the result is longer than the output";
    if (!kept_from(&l->output, number ? 0 : r->written)) return "the output beyond the result has changed";
    if (number) {
        if (r->verdict.nodes || r->verdict.vars) return "a refused verdict has counts";
        for (int i = 0; i < HOUAYLETAN_COUNT_WORDS; i++) {
            if (r->value[i]) return "a refused result has a value";
        }
    } else if (r->verdict.place || r->verdict.nodes != l->words.len / 3 || r->verdict.vars != l->words.words[0]) {
        return "an accepted verdict is not the input's";
    }
    return NULL;
}

#endif
