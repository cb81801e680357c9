/* Meanings and sequences by chance: valid ones, and the same with another value in one field. */
#include "../second/bytes.h"
#include "compare.h"

static void put_identity(uint8_t *bytes, uint32_t identity) {
    for (size_t i = 0; i < 4u; i++)
        bytes[i] = (uint8_t)(identity >> (8u * i) & 255u);
}

/* A number from least to most, more often than by chance one of these two. */
static uint32_t within(uint32_t least, uint32_t most) {
    if (one_in(4))
        return one_in(2) ? least : most;
    return least + chance(most - least + 1u);
}

static uint8_t second_for(uint8_t first) {
    if (first == 105u)
        return 126;
    if (first != 104u)
        return (uint8_t)within(100, 126);
    return one_in(4) ? 126u : (uint8_t)within(100, 109);
}

static uint8_t any_channel(void) {
    uint32_t channel = 16;
    while (channel == 16u || channel == 70u)
        channel = one_in(2) ? within(1, 28) : within(60, 88);
    return (uint8_t)channel;
}

/* The kind of the field and its three bytes. */
static void draw_field(uint8_t first, uint8_t *bytes) {
    bytes[0] = bytes[1] = bytes[2] = bytes[3] = 0;
    if (first == 104u || one_in(3))
        return;
    if (first != 105u) {
        bytes[0] = 1;
        bytes[1] = any_channel();
        return;
    }
    bytes[0] = 2;
    bytes[1] = (uint8_t)within(0, 99);
    bytes[2] = (uint8_t)within(0, 59);
    bytes[3] = (uint8_t)within(0, 59);
}

void draw_meaning(uint8_t *meaning) {
    static const uint8_t firsts[] = {100, 101, 104, 105, 106};
    static const uint8_t ends[] = {117, 122, 127};
    size_t ship = 4u * chance(2);
    put_identity(meaning + ship, within(200000000u, 799999999u));
    put_identity(meaning + 4u - ship, within(2000000u, 7999999u));
    meaning[8] = firsts[chance(5)];
    meaning[9] = second_for(meaning[8]);
    draw_field(meaning[8], meaning + 10);
    meaning[14] = (uint8_t)within(1, 16);
    meaning[15] = ends[chance(3)];
    for (size_t i = 0; i < 16u; i++)
        meaning[16u + i] = i < meaning[14] ? (uint8_t)within(0, 9) : 0u;
}

void damage_meaning(uint8_t *meaning) {
    uint8_t *one_identity = meaning + 4u * chance(2), *in_field = meaning + 11u + chance(3);
    uint8_t *digit = meaning + 16u + chance(16);
    switch (chance(10)) {
    case 0: put_identity(one_identity, any_identity()); return;
    case 1: /* both of one kind */
        for (size_t i = 0; i < 4u; i++)
            meaning[4u + i] = meaning[i];
        return;
    case 2: meaning[8] = any_byte(); return;
    case 3: meaning[9] = any_byte(); return;
    case 4: meaning[10] = one_in(4) ? any_byte() : (uint8_t)chance(4); return;  /* the kind of the field */
    case 5: *in_field = any_byte(); return;                                     /* one byte of the field */
    case 6: draw_field(one_in(2) ? 101u : 105u, meaning + 10); return;          /* a field such as some telecommand has */
    case 7: meaning[14] = one_in(2) ? any_byte() : (uint8_t)chance(20); return; /* the count of digits */
    case 8: *digit = one_in(2) ? any_byte() : (uint8_t)chance(12); return;      /* one digit, used or not */
    default: meaning[15] = any_byte();
    }
}

size_t draw_sequence(uint8_t *symbols) {
    uint8_t meaning[MEANING_BYTES];
    draw_meaning(meaning);
    return second_write_bytes(meaning, MEANING_BYTES, symbols, LONGEST) >> 8;
}

void put_check_right(uint8_t *symbols, size_t count) {
    uint8_t check = 0;
    if (count == 0u)
        return;
    for (size_t i = 0; i < count - 1u; i++)
        check = (uint8_t)(check ^ symbols[i]);
    symbols[count - 1u] = check;
}

/* Ten digits of an identity in pairs; some numbers have no nine digits, and give a first pair over 99. */
static void put_pairs(uint8_t *pairs, uint32_t identity) {
    uint32_t rest = identity / 10u;
    pairs[4] = (uint8_t)(identity % 10u * 10u);
    for (size_t i = 3; i > 0u; i--) {
        pairs[i] = (uint8_t)(rest % 100u);
        rest /= 100u;
    }
    pairs[0] = (uint8_t)(rest % 128u);
}

/* A channel field such as some telecommand has, or any three symbols. */
static void put_any_field(uint8_t *field) {
    uint8_t bytes[4];
    draw_field(one_in(2) ? 101u : 105u, bytes);
    field[0] = bytes[0] == 0u ? 126u : bytes[0] == 1u ? 90u : bytes[1];
    field[1] = bytes[0] == 0u ? 126u : bytes[2];
    field[2] = bytes[0] == 0u ? 126u : bytes[0] == 1u ? bytes[1] : bytes[3];
    for (size_t i = 0; i < 3u && one_in(4); i++)
        field[i] = any_byte();
}

/* One symbol of a field by chance: the table's places, then the number, the end and the check. */
static size_t place_in_a_field(size_t count) {
    static const struct { uint8_t at, length; } fields[] = {{0, 1}, {1, 5}, {6, 1}, {7, 5}, {12, 1}, {13, 1}, {14, 3}, {17, 1}};
    uint32_t field = chance(11);
    if (field < 8u)
        return fields[field].at + chance(fields[field].length);
    if (field == 8u)
        return 18u + chance((uint32_t)count - 20u);
    return count - (field == 9u ? 2u : 1u);
}

size_t damage_sequence(uint8_t *symbols, size_t count) {
    uint8_t *one = symbols + place_in_a_field(count), *pairs = symbols + (one_in(2) ? 1u : 7u);
    switch (chance(8)) {
    case 0: /* the length */
        for (size_t i = count; i < MOST_SYMBOLS; i++)
            symbols[i] = (uint8_t)chance(100);
        return chance(MOST_SYMBOLS + 1u);
    case 1: symbols[chance((uint32_t)count)] |= 128u; return count; /* a symbol over 127 */
    case 2: put_pairs(pairs, any_identity()); return count;         /* an identity */
    case 3: put_any_field(symbols + 14); return count;
    default: *one = any_byte(); return count;
    }
}
