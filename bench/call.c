/* The header and the archive as a C program sees them: document 01's diagram D, and D with a link past its nodes. */
#include "../include/houayletan.h"
#include <stdio.h>

int main(void) {
    uint32_t words[15] = {3, 0, 0, 3, 1, 1, 2, 0, 1, 1, 2, 1, 0, 2, 3};
    uint32_t room[HOUAYLETAN_ROOM(5)];
    const size_t room_len = HOUAYLETAN_ROOM(5), weight = HOUAYLETAN_WEIGHTS(1);
    HouayletanVerdict v = houayletan_validate(words, 15, room, room_len);
    printf("from C: number %u, place %zu, nodes %zu, vars %u", v.number, v.place, v.nodes, v.vars);
    HouayletanCount c = houayletan_exact_cardinality(words, 15, room, room_len);
    HouayletanFloat f = houayletan_cardinality(words, 15, room, room_len);
    uint32_t output[HOUAYLETAN_WEIGHTS(5)];
    HouayletanDiagram d = houayletan_reduce(words, 15, room, room_len, output, 15);
    printf("; count %u, as a double %g, reduced to %zu nodes", c.count[0], f.count, d.nodes);
    v = houayletan_node_valuation_weights(words, 15, room, room_len, output, 5 * weight);
    printf(", weights %u %u %u %u %u", output[0], output[weight], output[2 * weight], output[3 * weight], output[4 * weight]);
    words[11] = 5;
    v = houayletan_validate(words, 15, room, room_len);
    printf("; damaged: number %u, place %zu, nodes %zu, vars %u\n", v.number, v.place, v.nodes, v.vars);
    return !(v.number == 10 && v.place == 3);
}
