/* The parts of the comparison that read. */
#include "../c/checked.h"
#include "compare.h"

#define ROUNDS 260000u /* of four or five reads by chance */

static void copy(uint8_t *to, const uint8_t *from, size_t count) {
    for (size_t i = 0; i < count; i++)
        to[i] = from[i];
}

/* Each of P1 to P6, every single symbol replaced by each of 256 values, the check left and put right. */
bool replace_each_symbol(void) {
    uint8_t symbols[CHECKED_LENGTH];
    for (size_t which = 0; which < CHECKED_COUNT; which++)
        for (size_t place = 0; place < CHECKED_LENGTH; place++)
            for (uint32_t value = 0; value < 256u; value++) {
                copy(symbols, checked[which], CHECKED_LENGTH);
                symbols[place] = (uint8_t)value;
                if (!reads_agree(symbols, CHECKED_LENGTH, MEANING_BYTES))
                    return false;
                put_check_right(symbols, CHECKED_LENGTH);
                if (!reads_agree(symbols, CHECKED_LENGTH, MEANING_BYTES))
                    return false;
            }
    return true;
}

/* P2, P3 and P6 with each two neighbours before the check replaced by every two symbols, and the check put right: a channel,
 * no field and a duration, and which of two refusals comes first. */
bool replace_neighbours(void) {
    static const size_t chosen[] = {1, 2, 5};
    uint8_t symbols[CHECKED_LENGTH];
    for (size_t which = 0; which < 3u; which++)
        for (size_t place = 0; place + 2u < CHECKED_LENGTH; place++)
            for (uint32_t value = 0; value < 128u * 128u; value++) {
                copy(symbols, checked[chosen[which]], CHECKED_LENGTH);
                symbols[place] = (uint8_t)(value / 128u);
                symbols[place + 1u] = (uint8_t)(value % 128u);
                put_check_right(symbols, CHECKED_LENGTH);
                if (!reads_agree(symbols, CHECKED_LENGTH, MEANING_BYTES))
                    return false;
            }
    return true;
}

/* A checked sequence brought to a length: its number cut or filled up with digits, then its end and the right check. */
static void stretch(uint8_t *symbols, size_t which, size_t length, uint8_t mark) {
    copy(symbols, checked[which], CHECKED_LENGTH);
    for (size_t i = 22; i < MOST_SYMBOLS; i++)
        symbols[i] = (uint8_t)chance(100);
    symbols[17] = mark;
    if (length >= 2u)
        symbols[length - 2u] = checked[which][22];
    put_check_right(symbols, length);
}

/* Every length from 0 to 40 and every size of the meaning's bytes from 0 to 40: cut off or run on, and stretched. */
bool try_each_length(void) {
    uint8_t symbols[MOST_SYMBOLS];
    for (size_t length = 0; length <= MOST_SYMBOLS; length++)
        for (size_t size = 0; size <= MOST_SYMBOLS; size++)
            for (size_t which = 0; which < CHECKED_COUNT; which++) {
                for (size_t i = 0; i < MOST_SYMBOLS; i++)
                    symbols[i] = checked[which][i % CHECKED_LENGTH];
                if (!reads_agree(symbols, length, size))
                    return false;
                for (uint8_t mark = 105; mark <= 106u; mark++) {
                    stretch(symbols, which, length, mark);
                    if (!reads_agree(symbols, length, size))
                        return false;
                }
            }
    return true;
}

/* A valid sequence, with so many fields damaged, and the check put right or not. */
static bool read_damaged(uint32_t fields, bool right) {
    uint8_t symbols[MOST_SYMBOLS];
    size_t count = draw_sequence(symbols);
    for (uint32_t i = 0; i < fields && count > 20u; i++)
        count = damage_sequence(symbols, count);
    if (right)
        put_check_right(symbols, count);
    return reads_agree(symbols, count, any_size(MEANING_BYTES));
}

/* Symbols that were never a sequence. */
static bool read_noise(void) {
    uint8_t symbols[MOST_SYMBOLS];
    size_t count = chance(MOST_SYMBOLS + 1u);
    for (size_t i = 0; i < count; i++)
        symbols[i] = any_byte();
    return reads_agree(symbols, count, any_size(MEANING_BYTES));
}

bool read_by_chance(void) {
    for (uint32_t i = 0; i < ROUNDS; i++) {
        bool agree = read_damaged(0, false) && read_damaged(1, true) && read_damaged(1, false) && read_damaged(2, true) &&
                     (i % 8u != 0u || read_noise());
        if (!agree)
            return false;
    }
    return true;
}
