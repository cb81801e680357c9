/* Numbers by chance for the comparisons: the same ones for the same seed, many of them at an edge. */
#include "compare.h"

static uint64_t state;

void begin_chance(uint64_t seed) {
    state = seed;
}

/* splitmix64 */
static uint64_t next(void) {
    uint64_t z = state += 0x9e3779b97f4a7c15u;
    z = (z ^ z >> 30) * 0xbf58476d1ce4e5b9u;
    z = (z ^ z >> 27) * 0x94d049bb133111ebu;
    return z ^ z >> 31;
}

uint32_t chance(uint32_t below) {
    return (uint32_t)((next() >> 32) * below >> 32);
}

bool one_in(uint32_t many) {
    return chance(many) == 0u;
}

uint8_t any_byte(void) {
    static const uint8_t edges[] = {0, 1, 2, 3, 9, 10, 15, 16, 17, 26, 28, 29, 59, 60, 69, 70, 71, 88, 89, 90, 99, 100, 101, 102,
        103, 104, 105, 106, 107, 109, 110, 116, 117, 118, 121, 122, 123, 124, 125, 126, 127, 128, 255};
    if (one_in(2))
        return (uint8_t)chance(256);
    return edges[chance(sizeof edges)];
}

uint32_t any_identity(void) {
    static const uint32_t edges[] = {200000000u, 799999999u, 2000000u, 7999999u};
    uint32_t edge = edges[chance(4)];
    switch (chance(4)) {
    case 0: return edge + chance(3) - 1u; /* the edge, the number before it or the number after it */
    case 1: return chance(10000000);
    case 2: return chance(1000000000);
    default: return chance(4294967295u);
    }
}

size_t any_size(size_t need) {
    switch (chance(8)) {
    case 0: return chance((uint32_t)need);
    case 1: return need - 1u;
    case 2:
    case 3: return need + chance((uint32_t)(MOST_ROOM - need) + 1u);
    default: return need;
    }
}
