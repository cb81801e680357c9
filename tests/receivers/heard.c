/* Bytes as a receiver hands them over, piece by piece. */
#include "receivers.h"

struct heard heard[2];

void silence(void) {
    static const struct heard nothing = {AROUND, 0, {0}};
    heard[0] = heard[1] = nothing;
}

void hear_one(struct heard *one, uint8_t byte) {
    if (one->size < MOST_HEARD)
        one->bytes[one->from + one->size++] = byte;
}

void hear(struct heard *one, const uint8_t *symbols, size_t count) {
    for (size_t i = 0; i < count; i++)
        hear_one(one, symbols[i]);
}

void hear_at(struct heard *one, size_t place, const uint8_t *symbols, size_t count) {
    while (one->size < place && one->size < MOST_HEARD)
        hear_one(one, 0);
    for (size_t i = 0; i < count && place + i < MOST_HEARD; i++) {
        one->bytes[one->from + place + i] = symbols[i];
        if (one->size < place + i + 1u)
            one->size = place + i + 1u;
    }
}

void hear_noise(struct heard *one, size_t size) {
    for (size_t i = 0; i < size; i++)
        hear_one(one, (uint8_t)chance(256));
}

/* What belongs to nothing, of which much looks like a part of a sequence. */
static uint8_t any_stray(void) {
    static const uint8_t parts[] = {100, 105, 106, 117, 122, 127, 126};
    switch (chance(5)) {
    case 0: return 123;
    case 1: return parts[chance(sizeof parts)];
    case 2: return (uint8_t)chance(100);
    default: return any_byte();
    }
}

void hear_strays(struct heard *one, uint32_t most) {
    for (uint32_t i = chance(most + 1u); i > 0u; i--)
        hear_one(one, any_stray());
}

void cut(struct heard *one, size_t beginning, size_t end) {
    if (beginning > one->size)
        beginning = one->size;
    one->from += beginning;
    one->size -= beginning;
    one->size -= end < one->size ? end : one->size;
}

size_t draw_length(uint8_t *symbols, size_t length) {
    size_t count = 0;
    while (count != length)
        count = draw_sequence(symbols);
    return count;
}

bool end_with_format(uint8_t *symbols, size_t count) {
    uint8_t change = (uint8_t)(symbols[count - 1u] ^ 123u);
    for (size_t place = 18; place < count - 2u; place++) {
        uint8_t pair = symbols[place] ^ change;
        if (pair > (place == 18u && symbols[17] == 105u ? 9u : 99u))
            continue;
        symbols[place] = pair;
        symbols[count - 1u] = 123;
        return true;
    }
    return false;
}
