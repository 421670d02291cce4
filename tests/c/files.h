/* Node files read and written through the C interface, with guard bytes and words around all that is lent. */
#ifndef FILES_H
#define FILES_H

#include "lent.h"

typedef struct {
    uint8_t *all; /* guard bytes, the buffer, guard bytes */
    uint8_t *bytes;
    size_t len, guard;
    uint32_t seed;
} LentBytes;

/* What stands at place i of a buffer at first: the highest byte, the others repeat too soon. */
static inline uint8_t filling_byte(uint32_t seed, size_t i) { return (uint8_t)(filling(seed, i) >> 24); }

static inline uint8_t guarding_byte(const LentBytes *l, size_t i) { return (uint8_t)~filling_byte(l->seed, i); }

static inline LentBytes lend_bytes(size_t len, uint32_t seed, size_t guard) {
    size_t all = len + 2 * guard;
    LentBytes l = {malloc(all ? all : 1), NULL, len, guard, seed};
    if (!l.all) {
        fprintf(stderr, "no memory\n");
        exit(2);
    }
    l.bytes = l.all + guard;
    for (size_t i = 0; i < guard; i++) {
        l.all[i] = guarding_byte(&l, i);
        l.bytes[len + i] = guarding_byte(&l, guard + i);
    }
    for (size_t i = 0; i < len; i++) l.bytes[i] = filling_byte(seed, i);
    return l;
}

static inline bool guarded_bytes(const LentBytes *l) {
    for (size_t i = 0; i < l->guard; i++) {
        if (l->all[i] != guarding_byte(l, i) || l->bytes[l->len + i] != guarding_byte(l, l->guard + i)) return false;
    }
    return true;
}

static inline bool kept_bytes_from(const LentBytes *l, size_t from) {
    for (size_t i = from; i < l->len; i++) {
        if (l->bytes[i] != filling_byte(l->seed, i)) return false;
    }
    return true;
}

/* One side is read and the other written: by read_as_bytes the bytes and the words, by write_as_bytes the words and the bytes. */
typedef struct {
    bool writes;
    Lent words;
    LentBytes bytes;
} FileLoan;

static inline FileLoan loan_to_read(const uint8_t *bytes, size_t bytes_len, size_t output_len, uint32_t seed, size_t guard) {
    FileLoan l = {false, lend(output_len, seed, guard), lend_bytes(bytes_len, seed + 1, guard)};
    if (bytes_len) memcpy(l.bytes.bytes, bytes, bytes_len);
    return l;
}

static inline FileLoan loan_to_write(const uint32_t *words, size_t words_len, size_t bytes_len, uint32_t seed, size_t guard) {
    return (FileLoan){true, lend_copy(words, words_len, seed + 1, guard), lend_bytes(bytes_len, seed, guard)};
}

static inline void give_file_back(FileLoan *l) {
    free(l->words.all);
    free(l->bytes.all);
}

static inline HouayletanStored call_file(const FileLoan *l) {
    return l->writes ? houayletan_write_as_bytes(l->words.words, l->words.len, l->bytes.bytes, l->bytes.len)
                     : houayletan_read_as_bytes(l->bytes.bytes, l->bytes.len, l->words.words, l->words.len);
}

/* Word i of a node file: the variable, the low and the high link of each node in turn. */
static inline uint32_t word_in(const uint8_t *bytes, size_t i) {
    static const size_t starts[] = {0, 2, 6, HOUAYLETAN_BYTES_PER_NODE};
    const uint8_t *node = bytes + HOUAYLETAN_BYTES(i / 3);
    uint32_t word = 0;
    for (size_t at = starts[i % 3 + 1]; at-- > starts[i % 3];) word = 256 * word + node[at];
    return word;
}

/* NULL, or what a call has done wrong to what it was lent, or to its answer. input is what was copied in: bytes, or words where it
 * writes. */
static inline const char *wrong_file(const FileLoan *l, const HouayletanStored *r, const void *input) {
    if (!guarded(&l->words) || !guarded_bytes(&l->bytes)) return "a guard has changed";
    size_t len = l->writes ? 4 * l->words.len : l->bytes.len;
    if (len && memcmp(l->writes ? (const void *)l->words.words : l->bytes.bytes, input, len)) return "the input has changed";
    if (r->number && r->nodes) return "a refusal has nodes";
    if (!r->number && r->place) return "an answer has a place";
    if (!r->number && (r->nodes != (l->writes ? l->words.len / 3 : l->bytes.len / HOUAYLETAN_BYTES_PER_NODE))) return "the nodes are not the input's";
    if (3 * r->nodes > l->words.len || HOUAYLETAN_BYTES(r->nodes) > l->bytes.len) return "the result is longer than what was lent";
    if (l->writes ? !kept_bytes_from(&l->bytes, HOUAYLETAN_BYTES(r->nodes)) : !kept_from(&l->words, 3 * r->nodes)) {
        return "what was lent has changed beyond the result";
    }
    for (size_t i = 0; i < 3 * r->nodes; i++) {
        if (l->words.words[i] != word_in(l->bytes.bytes, i)) return "words and bytes don't say the same";
    }
    return NULL;
}

#endif
