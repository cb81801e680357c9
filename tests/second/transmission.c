/* Characters of ten units, and the transmission that carries one sequence (02, no. 3). */
#include "transmission.h"
#include "sequence.h"

/* A transmission's characters have the positions 0, 1, 2, ..: DX at the even ones, RX at the odd ones. */
#define DX_PHASINGS 6
#define RX_PHASINGS 8
static const uint16_t dx_phasing = 637;                                                   /* of 125 */
static const uint16_t rx_phasing[RX_PHASINGS] = {623, 366, 365, 876, 363, 874, 873, 232}; /* of 111 down to 104 */
static const uint8_t format_positions[] = {12, 14, 17, 19};                               /* in the order sent */
#define FORMATS (sizeof format_positions)
#define FIRST_COPY 14u /* of symbol k, from 1 on, with 2k to add */
#define REPEAT 19u

/* "up to eleven of its beginning lost" */
#define MOST_LOST 11

/* "at a place from 19 on", after one digit pair. */
#define FIRST_END 19u

/* ---- characters ---- */

/* Seven bits, low bit first; then the count of zeros among them, high bit first. */
static uint32_t character_of(uint32_t symbol) {
    static const uint8_t ones_in[16] = {0, 1, 1, 2, 1, 2, 2, 3, 1, 2, 2, 3, 2, 3, 3, 4};
    uint32_t zeros = 7u - ones_in[symbol % 16u] - ones_in[symbol / 16u];
    return symbol + 128u * (zeros / 4u) + 256u * (zeros / 2u % 2u) + 512u * (zeros % 2u);
}

uint32_t second_write_character(uint32_t symbol) {
    return symbol < NO_SYMBOL ? character_of(symbol) : NO_CHARACTER;
}

uint32_t second_read_character(uint32_t character) {
    uint32_t symbol = character % 128u;
    return character == character_of(symbol) ? symbol : NO_SYMBOL;
}

/* ---- writing ---- */

static void put(uint8_t *room, size_t position, uint32_t character) {
    room[2u * position] = (uint8_t)(character % 256u);
    room[2u * position + 1u] = (uint8_t)(character / 256u);
}

static void put_phasing(uint8_t *room) {
    for (size_t i = 0; i < DX_PHASINGS; i++)
        put(room, 2u * i, dx_phasing);
    for (size_t i = 0; i < RX_PHASINGS; i++)
        put(room, 2u * i + 1u, rx_phasing[i]);
}

static void put_symbols(uint8_t *room, const uint8_t *symbols, size_t count) {
    for (size_t i = 0; i < FORMATS; i++)
        put(room, format_positions[i], character_of(symbols[0]));
    for (size_t k = 1; k < count; k++) {
        uint32_t character = character_of(symbols[k]);
        put(room, FIRST_COPY + 2u * k, character);
        put(room, REPEAT + 2u * k, character);
    }
    uint32_t end = character_of(symbols[count - 2u]); /* "the end of sequence twice more" */
    put(room, FIRST_COPY + 2u * count, end);
    put(room, FIRST_COPY + 2u * (count + 1u), end);
}

uint32_t second_write_transmission(const uint8_t *symbols, size_t count, uint8_t *room, size_t room_size) {
    if (room_size < CHARACTER_BYTES * LONGEST_TRANSMISSION)
        return 21;
    if (count < SHORTEST_SEQUENCE || count > LONGEST_SEQUENCE)
        return 11;
    for (size_t i = 0; i < count; i++)
        if (symbols[i] > 127u)
            return 12;
    put_phasing(room);
    put_symbols(room, symbols, count);
    return 256u * 2u * ((uint32_t)count + 9u);
}

/* ---- finding the phasing ---- */

/* What was handed in, in whole characters. */
struct heard {
    const uint8_t *bytes;
    ptrdiff_t count;
};

#define NOT_THERE UINT32_MAX

static uint32_t character_at(const struct heard *heard, ptrdiff_t at) {
    if (at < 0 || at >= heard->count)
        return NOT_THERE;
    return heard->bytes[2 * at] + 256u * heard->bytes[2 * at + 1];
}

/* How many phasing characters a start has: 0 where they are too few. */
static uint32_t phasing_at(const struct heard *heard, ptrdiff_t start) {
    uint32_t dx = 0, rx = 0;
    for (ptrdiff_t i = 0; i < DX_PHASINGS; i++)
        dx += character_at(heard, start + 2 * i) == dx_phasing;
    for (ptrdiff_t i = 0; i < RX_PHASINGS; i++)
        rx += character_at(heard, start + 2 * i + 1) == rx_phasing[i];
    bool enough = (dx >= 2u && rx >= 1u) || (dx >= 1u && rx >= 2u) || rx >= 3u;
    return enough ? dx + rx : 0u;
}

/* "the one with the most phasing characters counts, of equals the earliest": after a whole phasing none can be better. */
static bool find_start(const struct heard *heard, ptrdiff_t *found) {
    uint32_t most = 0;
    for (ptrdiff_t start = -MOST_LOST; start < heard->count && most < DX_PHASINGS + RX_PHASINGS; start++) {
        uint32_t here = phasing_at(heard, start);
        if (here > most) {
            most = here;
            *found = start;
        }
    }
    return most > 0u;
}

/* ---- reading ---- */

/* What stands in place of a symbol without a good copy: all are there and bad, or one is not there any more. */
#define BAD 128u
#define GONE 129u

/* The first good copy of those at these positions. */
static uint8_t first_good(const struct heard *heard, ptrdiff_t start, const uint8_t *positions, size_t count) {
    uint8_t without = BAD;
    for (size_t i = 0; i < count; i++) {
        uint32_t character = character_at(heard, start + positions[i]);
        uint32_t symbol = second_read_character(character);
        if (symbol != NO_SYMBOL)
            return (uint8_t)symbol;
        if (character == NOT_THERE)
            without = GONE;
    }
    return without;
}

static uint8_t symbol_at(const struct heard *heard, ptrdiff_t start, size_t place) {
    if (place == 0u)
        return first_good(heard, start, format_positions, FORMATS);
    uint8_t copies[] = {(uint8_t)(FIRST_COPY + 2u * place), (uint8_t)(REPEAT + 2u * place)};
    return first_good(heard, start, copies, sizeof copies);
}

static bool is_end(uint8_t symbol) {
    return symbol == RQ || symbol == BQ || symbol == OTHER_END;
}

/* Hands back their count: up to the symbol after the first end. */
static size_t read_symbols(const struct heard *heard, ptrdiff_t start, uint8_t *symbols) {
    size_t count = LONGEST_SEQUENCE;
    for (size_t place = 0; place < count; place++) {
        symbols[place] = symbol_at(heard, start, place);
        if (place >= FIRST_END && place + 2u < count && is_end(symbols[place]))
            count = place + 2u;
    }
    return count;
}

static bool holds(const uint8_t *symbols, size_t count, uint8_t wanted) {
    for (size_t i = 0; i < count; i++)
        if (symbols[i] == wanted)
            return true;
    return false;
}

uint32_t second_read_transmission(const uint8_t *characters, size_t size, uint8_t *room, size_t room_size) {
    struct heard heard = {characters, (ptrdiff_t)(size / CHARACTER_BYTES)};
    uint8_t symbols[LONGEST_SEQUENCE];
    ptrdiff_t start;
    if (room_size < LONGEST_SEQUENCE)
        return 21;
    if (!find_start(&heard, &start))
        return 51;
    size_t count = read_symbols(&heard, start, symbols);
    if (holds(symbols, count, BAD))
        return 52;
    if (holds(symbols, count, GONE))
        return 53;
    for (size_t i = 0; i < count; i++)
        room[i] = symbols[i];
    return 256u * (uint32_t)count;
}
