/* The first valid sequence in what two receivers heard (02, no. 5). */
#include "receivers.h"
#include "sequence.h"

/* ---- the number handed back ---- */

static uint64_t number_of(uint64_t receiver, size_t place, size_t length) {
    return (uint64_t)place << 16 | receiver << 8 | length;
}

static bool is_empty(uint64_t found) {
    return found % 256u == 0u;
}

/* ---- at one place ---- */

/* Format, category and the count's parity, which every sequence has: of noise next to nothing gets past the first look. */
static bool may_begin(const uint8_t *symbols) {
    return symbols[0] == 123u && symbols[6] == 100u && (symbols[17] == 105u || symbols[17] == 106u);
}

static bool is_end(uint8_t symbol) {
    return symbol == RQ || symbol == BQ || symbol == OTHER_END;
}

/* "at one place the shortest"; 0 where no sequence begins. A length without its end of sequence is not worth a reading. */
static size_t length_here(const uint8_t *symbols, size_t left) {
    struct meaning meaning;
    size_t most = left < LONGEST_SEQUENCE ? left : LONGEST_SEQUENCE;
    for (size_t length = SHORTEST_SEQUENCE; length <= most; length++)
        if (is_end(symbols[length - 2u]) && second_read(symbols, length, &meaning) == 0)
            return length;
    return 0;
}

/* ---- in one receiver's bytes, then in the other's ---- */

/* "the earliest starting place": each is looked at, also inside of what was no sequence. */
static uint64_t search(const uint8_t *bytes, size_t size, uint64_t receiver) {
    for (size_t place = 0; size - place >= SHORTEST_SEQUENCE; place++) {
        size_t length = may_begin(bytes + place) ? length_here(bytes + place, size - place) : 0u;
        if (length != 0u)
            return number_of(receiver, place, length);
    }
    return number_of(receiver, 0, 0);
}

uint64_t second_find_sequence(const uint8_t *first, size_t first_size, const uint8_t *second, size_t second_size) {
    uint64_t found = search(first, first_size, 0);
    return is_empty(found) ? search(second, second_size, 1) : found; /* "or, failing that, in the second's" */
}
