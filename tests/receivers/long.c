/* The part of the comparison on more bytes than two of them can count. */
#include "../c/checked.h"
#include "../second/receivers.h"
#include "receivers.h"

#define LONG_BYTES 140000u

static uint8_t long_ones[2][LONG_BYTES], kept[2][LONG_BYTES];

static void fill_both(void) {
    for (size_t r = 0; r < 2u; r++)
        for (size_t i = 0; i < LONG_BYTES; i++)
            long_ones[r][i] = any_byte();
}

/* Only what is returned, and the bytes: nothing stands around them. */
static bool long_ones_agree(size_t first_size, size_t second_size) {
    unsigned differ = 0;
    for (size_t i = 0; i < sizeof kept; i++)
        kept[i / LONG_BYTES][i % LONG_BYTES] = long_ones[i / LONG_BYTES][i % LONG_BYTES];
    uint64_t found = second_find_sequence(long_ones[0], first_size, long_ones[1], second_size);
    bool agree = finder_trial->find(long_ones[0], first_size, long_ones[1], second_size) == found;
    for (size_t i = 0; i < sizeof kept; i++)
        differ |= (unsigned)(kept[i / LONG_BYTES][i % LONG_BYTES] ^ long_ones[i / LONG_BYTES][i % LONG_BYTES]);
    count_search(found);
    return agree && differ == 0u;
}

/* In one receiver's bytes, the other's being without any or few. */
static bool finds_far(size_t place) {
    for (size_t r = 0; r < 2u; r++) {
        size_t other = one_in(2) ? LONG_BYTES : chance(300);
        fill_both();
        for (size_t i = 0; i < CHECKED_LENGTH && place + i < LONG_BYTES; i++)
            long_ones[r][place + i] = checked[place % CHECKED_COUNT][i];
        if (!long_ones_agree(r == 0u ? LONG_BYTES : other, r == 0u ? other : LONG_BYTES))
            return false;
    }
    return true;
}

/* Sequences at either side of the places 32,768, 65,536 and 131,072, at the end, and none. */
bool find_in_long_ones(void) {
    static const uint32_t places[] = {250, 4000, 32760, 65510, 131060, LONG_BYTES - 40u};
    for (size_t i = 0; i < sizeof places / sizeof places[0]; i++)
        for (size_t step = 0; step <= 40u; step += i < 2u ? 40u : 4u)
            if (!finds_far(places[i] + step))
                return false;
    for (uint32_t i = 0; i < 20u; i++) /* anywhere from 65,536 on */
        if (!finds_far(65536u + chance(LONG_BYTES - 65536u)))
            return false;
    return true;
}
