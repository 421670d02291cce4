/* Replays stored requests and holds each answer to the stored one: the verdict, the value, every word of the output, the
 * room, and guard words around all that is lent. The file is made by compare/run.sh, which says how its answers come about.
 *
 * One request a line, numbers separated by spaces:
 *
 *   name, number of words, the words,
 *   a list with its length first (a cut by a list), one number (to a size), the words of a count (to a count), or nothing,
 *   as_is (to a size and to a count),
 *   length of the room, length of the output, seed of what both hold at first, '=',
 *   number, place, nodes, vars, number of values, the values,
 *   number of output words, and these words, or '#' and their sum by FNV-1a.
 *
 * Of a node file:
 *
 *   read_as_bytes, number of bytes, the bytes, length of the output, seed, '=', number, place, nodes, number of output words, and these
 *   words, or '#' and their sum;
 *   write_as_bytes, number of words, the words, length of the bytes, seed, '=', number, place, nodes, number of bytes written, and these
 *   bytes, or '#' and the sum of as many words.
 *
 * Of a settings block:
 *
 *   read_settings or read_settings_v1, number of bytes, the bytes, seed, '=', number, place, version, direction, kind, as_is, the words of the target;
 *   write_settings, version, direction, kind, as_is, the words of the target, length of the output, seed, '=', number, place, bytes, number of bytes
 *   written, and these bytes, or '#' and the sum of as many words.
 *
 * Of two diagrams:
 *
 *   compare, number of words and the words of the first, and the same of the second, length of the room, length of the table, seed, '=',
 *   number, place, pairs, vars, which, differ, and the words of four counts: first only, second only, both, the smallest.
 *
 * Of a pool:
 *
 *   pool_add, pool_drop, pool_read or pool_summarize, number of words and the words of the table, of the slots, of the row, the slot, the same of
 *   the diagram, length of the room, length of the output, seed, '=', number, place, nodes, vars, and of table, slots and row afterwards and of
 *   what was written to the output each its number of words, and these words, or '#' and their sum. */
#include "comparing.h"
#include "pooling.h"
#include "settings.h"
#include <inttypes.h>

static FILE *in;
static unsigned long line = 1;

static void spoilt(const char *what) {
    fprintf(stderr, "replay: line %lu: %s\n", line, what);
    exit(2);
}

static void blank(void) {
    int c = getc(in);
    while (c == ' ') c = getc(in);
    ungetc(c, in);
}

static uint64_t number(void) {
    uint64_t x = 0;
    int c, digits = 0;
    blank();
    while ((c = getc(in)) >= '0' && c <= '9') x = 10 * x + (uint64_t)(c - '0'), digits++;
    ungetc(c, in);
    if (!digits) spoilt("a number is missing");
    return x;
}

static void mark(int wanted) {
    blank();
    if (getc(in) != wanted) spoilt("a mark is missing");
}

/* More nodes than are taken. */
#define MOST (HOUAYLETAN_NODES + 104)
static uint32_t words[3 * MOST], list[MOST], output[HOUAYLETAN_WEIGHTS(MOST)];

static size_t numbers(uint32_t *to, size_t most) {
    size_t len = number();
    if (len > most) spoilt("too many words");
    for (size_t i = 0; i < len; i++) to[i] = (uint32_t)number();
    return len;
}

static uint64_t sum_of(const uint32_t *w, size_t len) {
    uint64_t sum = 0xcbf29ce484222325u;
    for (size_t i = 0; i < len; i++) {
        for (int b = 0; b < 32; b += 8) sum = (sum ^ (w[i] >> b & 255)) * 0x100000001b3u;
    }
    return sum;
}

/* The words that are expected, or their sum; how many there are. */
static size_t expected_words(uint64_t *sum) {
    size_t len = number();
    if (len > sizeof output / 4) spoilt("too long an output");
    blank();
    int c = getc(in);
    if (c == '#') {
        *sum = number();
    } else {
        ungetc(c, in);
        for (size_t i = 0; i < len; i++) output[i] = (uint32_t)number();
        *sum = sum_of(output, len);
    }
    return len;
}

/* NULL, or what is wrong with the answer to a line that asks for a node file to be read or written. */
static const char *replay_file(bool writes) {
    static uint8_t bytes[sizeof words];
    size_t len = numbers(words, sizeof words / 4), lent = number();
    uint32_t seed = (uint32_t)number();
    for (size_t i = 0; i < len && !writes; i++) bytes[i] = (uint8_t)words[i];
    mark('=');
    HouayletanStored expected;
    expected.number = (uint32_t)number();
    expected.place = number();
    expected.nodes = number();
    uint64_t sum;
    size_t written = expected_words(&sum);
    mark('\n');
    FileLoan l = writes ? loan_to_write(words, len, lent, seed, 16) : loan_to_read(bytes, len, lent, seed, 16);
    HouayletanStored r = call_file(&l);
    const char *fault = wrong_file(&l, &r, writes ? (const void *)words : bytes);
    if (!fault && (r.number != expected.number || r.place != expected.place || r.nodes != expected.nodes)) fault = "answer";
    if (!fault && written != (writes ? HOUAYLETAN_BYTES(r.nodes) : 3 * r.nodes)) fault = "length of the result";
    for (size_t i = 0; !fault && writes && i < written; i++) output[i] = l.bytes.bytes[i];
    if (!fault && sum_of(writes ? output : l.words.words, written) != sum) fault = "the result";
    give_file_back(&l);
    return fault;
}

static HouayletanSetting setting(void) {
    HouayletanSetting x;
    x.direction = (uint32_t)number();
    x.kind = (uint32_t)number();
    x.as_is = (uint32_t)number();
    for (int i = 0; i < HOUAYLETAN_COUNT_WORDS; i++) x.target[i] = (uint32_t)number();
    return x;
}

/* NULL, or what is wrong with the answer to a line that asks for a settings block to be read. */
static const char *replay_read_settings(uint32_t newest) {
    static uint8_t block[sizeof words];
    size_t len = numbers(words, sizeof words / 4);
    for (size_t i = 0; i < len; i++) block[i] = (uint8_t)words[i];
    uint32_t seed = (uint32_t)number();
    mark('=');
    HouayletanSettingRead expected;
    expected.number = (uint32_t)number();
    expected.place = number();
    expected.version = (uint32_t)number();
    expected.setting = setting();
    mark('\n');
    LentBytes l = lend_block(block, len, seed, 16);
    HouayletanSettingRead r = call_read_settings(&l, newest);
    const char *fault = wrong_setting_read(&l, &r, block, &expected);
    free(l.all);
    return fault;
}

/* NULL, or what is wrong with the answer to a line that asks for one to be written. */
static const char *replay_write_settings(void) {
    uint32_t version = (uint32_t)number();
    HouayletanSetting x = setting();
    size_t lent = number();
    uint32_t seed = (uint32_t)number();
    mark('=');
    uint32_t refused = (uint32_t)number();
    size_t place = number(), bytes = number();
    uint64_t sum;
    size_t written = expected_words(&sum);
    mark('\n');
    LentBytes l = lend_bytes(lent, seed, 16);
    HouayletanSettingWritten r = houayletan_write_settings(version, x, l.bytes, lent);
    const char *fault = wrong_setting_written(&l, &r, refused, l.bytes);
    if (!fault && (r.place != place || r.bytes != bytes || bytes != written)) fault = "answer";
    for (size_t i = 0; !fault && i < written; i++) output[i] = l.bytes[i];
    if (!fault && sum_of(output, written) != sum) fault = "the block";
    free(l.all);
    return fault;
}

/* NULL, or what is wrong with the answer to a line that asks for two diagrams to be compared. */
static const char *replay_comparison(void) {
    static uint32_t second[3 * MOST];
    size_t len = numbers(words, sizeof words / 4), second_len = numbers(second, sizeof second / 4), room_len = number(), table_len = number();
    uint32_t seed = (uint32_t)number(), counts[4][HOUAYLETAN_COUNT_WORDS];
    mark('=');
    HouayletanComparison expected;
    expected.verdict.number = (uint32_t)number();
    expected.verdict.place = number();
    expected.verdict.nodes = number();
    expected.verdict.vars = (uint32_t)number();
    expected.which = (uint32_t)number();
    expected.differ = (uint32_t)number();
    for (int k = 0; k < 4; k++) {
        for (int i = 0; i < HOUAYLETAN_COUNT_WORDS; i++) counts[k][i] = (uint32_t)number();
    }
    mark('\n');
    PairLoan l = loan_of_pair(words, len, second, second_len, room_len, table_len, seed, 16);
    HouayletanComparison r = call_compare(&l);
    const char *fault = wrong_comparison(&l, &r, words, second);
    const HouayletanVerdict *a = &r.verdict, *b = &expected.verdict;
    if (!fault && (a->number != b->number || a->place != b->place || a->nodes != b->nodes || a->vars != b->vars)) fault = "verdict";
    if (!fault && (r.which != expected.which || r.differ != expected.differ)) fault = "which or differ";
    const uint32_t *said[] = {r.first, r.second, r.both, r.smallest};
    for (int k = 0; k < 4 && !fault; k++) {
        if (memcmp(said[k], counts[k], sizeof counts[k])) fault = "a count or the smallest";
    }
    give_pair_back(&l);
    return fault;
}

/* Whether words are those that a line ends with. */
static bool are_expected(const uint32_t *w, size_t len, size_t expected_len, uint64_t sum) { return len == expected_len && sum_of(w, len) == sum; }

/* NULL, or what is wrong with the answer to a line that calls a pool. */
static const char *replay_pool(PoolCall call) {
    static uint32_t table[3 * MOST], slots[2 * HOUAYLETAN_SLOTS], row[4 * HOUAYLETAN_VARS];
    size_t table_len = numbers(table, sizeof table / 4), slots_len = numbers(slots, sizeof slots / 4), row_len = numbers(row, sizeof row / 4);
    size_t slot = number();
    size_t words_len = numbers(words, sizeof words / 4), room_len = number(), output_len = number();
    const PoolRequest q = {call, slot, words, words_len, room_len, output_len, (uint32_t)number()};
    mark('=');
    HouayletanVerdict expected;
    expected.number = (uint32_t)number();
    expected.place = number();
    expected.nodes = number();
    expected.vars = (uint32_t)number();
    uint64_t table_sum, slots_sum, row_sum, output_sum;
    size_t new_table = expected_words(&table_sum), new_slots = expected_words(&slots_sum), new_row = expected_words(&row_sum);
    size_t written = expected_words(&output_sum);
    mark('\n');
    Pool p = lend_all(table, table_len, slots, slots_len, row, row_len, 16), was = copy_of_pool(&p);
    PoolReply r = call_pool(&p, &q);
    const char *fault = wrong_pool_call(&p, &was, &q, &r);
    if (!fault && !same_verdict(r.verdict, expected)) fault = "verdict";
    if (!fault && !are_expected(p.table.words, p.table.len, new_table, table_sum)) fault = "the table";
    if (!fault && !are_expected(p.slots.words, p.slots.len, new_slots, slots_sum)) fault = "the slots";
    if (!fault && !are_expected(p.row.words, p.row.len, new_row, row_sum)) fault = "the row";
    if (!fault && !are_expected(r.output.words, call == READ ? 3 * r.verdict.nodes : 0, written, output_sum)) fault = "the words read";
    give_reply_back(&r);
    give_pool_back(&was);
    give_pool_back(&p);
    return fault;
}

/* NULL, or what is wrong with the answer to a line that is no request of operations.h. */
static const char *replay_other(const char *name) {
    for (size_t call = 0; call < POOL_CALLS; call++) {
        if (strcmp(name, pool_calls[call]) == 0) return replay_pool((PoolCall)call);
    }
    if (strcmp(name, "write_settings") == 0) return replay_write_settings();
    if (strncmp(name, "read_settings", 13) == 0) return replay_read_settings(strcmp(name, "read_settings") == 0 ? HOUAYLETAN_SETTINGS_VERSION : 1);
    return strcmp(name, "compare") == 0 ? replay_comparison() : replay_file(strcmp(name, "write_as_bytes") == 0);
}

static bool is_other(const char *name) {
    static const char *const others[] = {"compare", "read_as_bytes", "write_as_bytes", "pool_add", "pool_drop", "pool_read", "pool_summarize",
                                         "read_settings", "read_settings_v1", "write_settings"};
    for (size_t i = 0; i < sizeof others / sizeof others[0]; i++) {
        if (strcmp(name, others[i]) == 0) return true;
    }
    return false;
}

int main(int argc, char **argv) {
    if (argc != 2 || !(in = fopen(argv[1], "r"))) {
        fprintf(stderr, "usage: replay FILE\n");
        return 2;
    }
    unsigned long passed = 0, failed = 0;
    char name[64];
    while (fscanf(in, "%63[a-z_0-9]", name) == 1) {
        if (is_other(name)) {
            const char *fault = replay_other(name);
            if (fault) printf("FAILED: line %lu, %s: %s\n", line, name, fault);
            fault ? failed++ : passed++;
            line++;
            continue;
        }
        const Operation *o = operation(name);
        if (!o) spoilt("no such operation");
        size_t words_len = numbers(words, sizeof words / 4), list_len = 0;
        uint32_t target[HOUAYLETAN_COUNT_WORDS] = {0};
        if (o->argument == LIST) list_len = numbers(list, sizeof list / 4);
        if (o->argument == SIZE_TARGET) target[0] = (uint32_t)number();
        if (o->argument == COUNT_TARGET) {
            for (int i = 0; i < HOUAYLETAN_COUNT_WORDS; i++) target[i] = (uint32_t)number();
        }
        uint32_t as_is = to_target(o) ? (uint32_t)number() : 0;
        size_t room_len = number(), output_len = number();
        uint32_t seed = (uint32_t)number();
        mark('=');
        Reply expected;
        memset(&expected, 0, sizeof expected);
        expected.verdict.number = (uint32_t)number();
        expected.verdict.place = number();
        expected.verdict.nodes = number();
        expected.verdict.vars = (uint32_t)number();
        expected.values = number();
        if (expected.values > HOUAYLETAN_COUNT_WORDS) spoilt("too many values");
        for (size_t i = 0; i < expected.values; i++) expected.value[i] = number();
        uint64_t sum;
        expected.written = expected_words(&sum);
        mark('\n');

        Loan l = loan(words, words_len, list, list_len, room_len, output_len, seed, 16);
        Request q = request_of(&l, target, as_is);
        Reply r = call(o, &q);
        const char *fault = wrong(&l, &r, words, list);
        const HouayletanVerdict *a = &r.verdict, *b = &expected.verdict;
        if (!fault && (a->number != b->number || a->place != b->place || a->nodes != b->nodes || a->vars != b->vars)) fault = "verdict";
        if (!fault && (r.values != expected.values || memcmp(r.value, expected.value, sizeof r.value))) fault = "value";
        if (!fault && b->number == 0 && r.written != expected.written) fault = "length of the result";
        if (!fault && b->number == 0 && sum_of(l.output.words, r.written) != sum) fault = "words of the result";
        if (fault) {
            failed++;
            printf("FAILED: line %lu, %s: %s\n", line, name, fault);
        } else {
            passed++;
        }
        give_back(&l);
        line++;
    }
    if (!feof(in)) spoilt("not a request");
    printf("replay: %lu passed, %lu failed\n", passed, failed);
    return failed || !passed;
}
