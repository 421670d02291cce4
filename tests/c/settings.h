/* Settings blocks read and written through the C interface, with guard bytes around all that is lent; and what docs/SETTINGS.md says of them, in a
 * reading of its own. */
#ifndef SETTINGS_H
#define SETTINGS_H

#include "files.h"

#define BLOCK HOUAYLETAN_BLOCK_BYTES
#define SUMS_AT (BLOCK - 4)
#define TARGET_AT 4
#define TARGET_END (TARGET_AT + 4 * HOUAYLETAN_COUNT_WORDS)

/* ---- the reading */

/* The two sums of a block, to its last four bytes. */
static inline void seal(uint8_t *block) {
    uint32_t plain = 0, weighed = 0;
    for (uint32_t i = 0; i < SUMS_AT; i++) {
        plain += block[i];
        weighed += (i + 1) * block[i];
    }
    const uint8_t sums[] = {(uint8_t)plain, (uint8_t)(plain >> 8), (uint8_t)weighed, (uint8_t)(weighed >> 8)};
    memcpy(block + SUMS_AT, sums, sizeof sums);
}

static inline bool is_sealed(const uint8_t *block) {
    uint8_t own[BLOCK];
    memcpy(own, block, BLOCK);
    seal(own);
    return memcmp(own, block, BLOCK) == 0;
}

static inline bool in_range(uint32_t version, const HouayletanSetting *x) {
    if (x->direction > 1 || x->kind > 1 || x->as_is > (version == 1 ? 0u : 1u)) return false;
    for (int i = 1; i < HOUAYLETAN_COUNT_WORDS; i++) {
        if (x->kind == HOUAYLETAN_TO_SIZE && x->target[i]) return false;
    }
    return true;
}

/* The block of fields that have a byte each. */
static inline void block_of(uint8_t *block, uint32_t version, const HouayletanSetting *x) {
    const uint32_t fields[] = {version, x->direction, x->kind, x->as_is};
    memset(block, 0, BLOCK);
    for (int i = 0; i < 4; i++) block[i] = (uint8_t)fields[i];
    for (int i = 0; i < 4 * HOUAYLETAN_COUNT_WORDS; i++) block[TARGET_AT + i] = (uint8_t)(x->target[i / 4] >> 8 * (i % 4));
    seal(block);
}

static inline HouayletanSettingRead refused_setting(uint32_t number) {
    HouayletanSettingRead r;
    memset(&r, 0, sizeof r);
    r.number = number;
    return r;
}

static inline HouayletanSettingRead reading_settings(const uint8_t *block, size_t len, uint32_t newest) {
    if (len != BLOCK) return refused_setting(21);
    if (!is_sealed(block)) return refused_setting(22);
    if (block[0] == 0 || block[0] > newest) return refused_setting(38);
    HouayletanSettingRead r = refused_setting(0);
    bool flagged = block[0] > 1, unused = !flagged && block[3];
    r.version = block[0];
    r.setting.direction = block[1];
    r.setting.kind = block[2];
    r.setting.as_is = flagged ? block[3] : 0;
    for (int i = 0; i < 4 * HOUAYLETAN_COUNT_WORDS; i++) r.setting.target[i / 4] |= (uint32_t)block[TARGET_AT + i] << 8 * (i % 4);
    for (size_t i = TARGET_END; i < SUMS_AT; i++) unused = unused || block[i];
    return !in_range(r.version, &r.setting) ? refused_setting(39) : unused ? refused_setting(24) : r;
}

static inline uint32_t reading_to_store(uint32_t version, const HouayletanSetting *x, size_t lent) {
    return version == 0 || version > HOUAYLETAN_SETTINGS_VERSION ? 38 : !in_range(version, x) ? 39 : lent < BLOCK ? 4 : 0;
}

/* ---- the calls */

static inline HouayletanSettingRead call_read_settings(const LentBytes *l, uint32_t newest) {
    return newest == 1 ? houayletan_read_settings_v1(l->bytes, l->len) : houayletan_read_settings(l->bytes, l->len);
}

static inline bool same_setting_read(const HouayletanSettingRead *a, const HouayletanSettingRead *b) {
    return a->number == b->number && a->place == b->place && a->version == b->version && memcmp(&a->setting, &b->setting, sizeof a->setting) == 0;
}

static inline LentBytes lend_block(const uint8_t *block, size_t len, uint32_t seed, size_t guard) {
    LentBytes l = lend_bytes(len, seed, guard);
    if (len) memcpy(l.bytes, block, len);
    return l;
}

/* NULL, or what is wrong with an answer to bytes that were lent, or with what was done to these. */
static inline const char *wrong_setting_read(const LentBytes *l, const HouayletanSettingRead *r, const uint8_t *input, const HouayletanSettingRead *expected) {
    if (!guarded_bytes(l)) return "a guard has changed";
    if (l->len && memcmp(l->bytes, input, l->len)) return "the input has changed";
    if (r->number && !same_setting_read(r, &(HouayletanSettingRead){.number = r->number})) return "a refusal shows something";
    return same_setting_read(r, expected) ? NULL : "another answer";
}

/* The same of an output that was lent; block is what is written where number is 0. */
static inline const char *wrong_setting_written(const LentBytes *l, const HouayletanSettingWritten *r, uint32_t number, const uint8_t *block) {
    if (!guarded_bytes(l)) return "a guard has changed";
    if (r->number != number || r->place || r->bytes != (number ? 0 : BLOCK)) return "another answer";
    if (!kept_bytes_from(l, number ? 0 : BLOCK)) return "what was lent has changed beyond the result";
    return !number && memcmp(l->bytes, block, BLOCK) ? "another block" : NULL;
}

#endif
