/* A caller of headers before this one, as an object compiled against them asks the linker for functions: those of counts of 8 words, 64 words
 * of room for a node, 255 for sizes by variable, and the number 2 at the names of the cuts to a target alone; and of the last one the pool's add
 * and drop without a row. It must not link, for want of every function (test.sh). */
#include <stddef.h>
#include <stdint.h>

typedef struct { uint32_t number; size_t place; size_t nodes; uint32_t vars; } Verdict;
typedef struct { Verdict verdict; uint32_t count[8]; } Count;
typedef struct { Verdict verdict; double count; } Float;
typedef struct { Verdict verdict; size_t nodes; } Diagram;
typedef struct { Verdict verdict; size_t amount; } Amount;
typedef struct { Verdict verdict; size_t nodes; size_t trials; } Approximation;
typedef struct { uint32_t words[8]; } Natural;

#define IN const uint32_t *words, size_t words_len
#define LIST const uint32_t *list, size_t list_len
#define ROOM uint32_t *room, size_t room_len
#define OUT uint32_t *output, size_t output_len
#define POOL uint32_t *table, size_t table_len, uint32_t *slots, size_t slots_len

void houayletan_clear(ROOM, size_t count);
Verdict houayletan_validate(IN, ROOM);
Verdict houayletan_node_valuation_weights(IN, ROOM, OUT);
Verdict houayletan_size_per_variable(IN, ROOM, OUT);
Count houayletan_exact_cardinality(IN, ROOM);
Count houayletan_exact_clause_cardinality(IN, ROOM);
Count houayletan_count_and_weights(IN, ROOM, OUT);
Float houayletan_cardinality(IN, ROOM);
Amount houayletan_size(IN, ROOM);
Amount houayletan_num_vars(IN, ROOM);
Amount houayletan_is_true(IN, ROOM);
Amount houayletan_is_false(IN, ROOM);
Amount houayletan_is_clause(IN, ROOM);
Amount houayletan_is_valuation(IN, ROOM);
Diagram houayletan_reduce(IN, ROOM, OUT);
Diagram houayletan_not(IN, ROOM, OUT);
Diagram houayletan_underapproximate(IN, LIST, ROOM, OUT);
Diagram houayletan_overapproximate(IN, LIST, ROOM, OUT);
Approximation houayletan_underapproximate_to_size_2(IN, uint32_t target, uint32_t as_is, ROOM, OUT);
Approximation houayletan_overapproximate_to_size_2(IN, uint32_t target, uint32_t as_is, ROOM, OUT);
Approximation houayletan_underapproximate_to_cardinality_2(IN, Natural target, uint32_t as_is, ROOM, OUT);
Approximation houayletan_overapproximate_to_cardinality_2(IN, Natural target, uint32_t as_is, ROOM, OUT);
Verdict houayletan_pool_add_3(POOL, IN, size_t slot, ROOM);
Verdict houayletan_pool_drop_3(POOL, size_t slot);

#define D words, 15
#define BY list, 1
#define IN_ROOM room, 5 * 64
#define TO output, 255
#define OF_POOL table, 15, slots, 64

int main(void) {
    static const uint32_t words[15] = {3, 0, 0, 3, 1, 1, 2, 0, 1, 1, 2, 1, 0, 2, 3}, list[1] = {3};
    static uint32_t room[5 * 64], output[255], table[15] = {3, 0, 0, 3, 1, 1}, slots[64];
    const Natural five = {{5}};
    const Verdict said[] = {
        houayletan_validate(D, IN_ROOM), houayletan_node_valuation_weights(D, IN_ROOM, TO), houayletan_size_per_variable(D, IN_ROOM, TO),
        houayletan_exact_cardinality(D, IN_ROOM).verdict, houayletan_exact_clause_cardinality(D, IN_ROOM).verdict,
        houayletan_count_and_weights(D, IN_ROOM, TO).verdict, houayletan_cardinality(D, IN_ROOM).verdict,
        houayletan_size(D, IN_ROOM).verdict, houayletan_num_vars(D, IN_ROOM).verdict,
        houayletan_is_true(D, IN_ROOM).verdict, houayletan_is_false(D, IN_ROOM).verdict,
        houayletan_is_clause(D, IN_ROOM).verdict, houayletan_is_valuation(D, IN_ROOM).verdict,
        houayletan_reduce(D, IN_ROOM, TO).verdict, houayletan_not(D, IN_ROOM, TO).verdict,
        houayletan_underapproximate(D, BY, IN_ROOM, TO).verdict, houayletan_overapproximate(D, BY, IN_ROOM, TO).verdict,
        houayletan_underapproximate_to_size_2(D, 5, 0, IN_ROOM, TO).verdict,
        houayletan_overapproximate_to_size_2(D, 5, 0, IN_ROOM, TO).verdict,
        houayletan_underapproximate_to_cardinality_2(D, five, 0, IN_ROOM, TO).verdict,
        houayletan_overapproximate_to_cardinality_2(D, five, 0, IN_ROOM, TO).verdict,
        houayletan_pool_add_3(OF_POOL, D, 0, IN_ROOM), houayletan_pool_drop_3(OF_POOL, 0),
    };
    houayletan_clear(IN_ROOM, 5 * 64);
    uint32_t refused = 0;
    for (size_t i = 0; i < sizeof said / sizeof said[0]; i++) refused += said[i].number;
    return refused != 0;
}
