/* Characters as a modem hands them over: transmissions whole and spoiled, and what belongs to none. */
#include "../second/transmission.h"
#include "transmissions.h"

struct heard heard;

size_t any_room(size_t need) {
    switch (chance(16)) {
    case 0: return chance((uint32_t)need);
    case 1: return need - 1u;
    case 2:
    case 3: return need + chance(41);
    default: return need;
    }
}

/* ---- symbols ---- */

static uint8_t any_phasing(void) {
    return one_in(3) ? 125u : (uint8_t)(104u + chance(8));
}

static uint8_t any_end(void) {
    static const uint8_t ends[] = {117, 122, 127};
    return ends[chance(3)];
}

static uint8_t any_symbol(void) {
    switch (chance(8)) {
    case 0: return any_phasing();
    case 1: return any_end();
    default: return (uint8_t)chance(128);
    }
}

size_t draw_list(uint8_t *symbols) {
    if (one_in(2))
        return draw_sequence(symbols);
    size_t count = 21u + chance(8);
    for (size_t i = 0; i < count; i++)
        symbols[i] = one_in(2) ? (uint8_t)chance(100) : any_symbol();
    if (one_in(2))
        symbols[count - 2u] = any_end();
    return count;
}

/* ---- single characters ---- */

/* One unit changed, a number over 1023, or any number that is no symbol's. */
uint16_t any_none(void) {
    uint32_t character = second_write_character(any_symbol());
    switch (chance(4)) {
    case 0: return (uint16_t)(character + 1024u * (1u + chance(63)));
    case 1: return (uint16_t)(one_in(2) ? 1024u : 65535u);
    case 2: /* so many units that it may be another symbol's */
        for (uint32_t i = chance(4); i > 0u; i--)
            character ^= 1u << chance(10);
        break;
    default: character ^= 1u << chance(10);
    }
    return second_read_character(character) == NO_SYMBOL ? (uint16_t)character : 0u;
}

uint16_t any_stray(void) {
    switch (chance(4)) {
    case 0: return any_none();
    case 1: return (uint16_t)second_write_character(any_phasing());
    case 2: return (uint16_t)chance(1024);
    default: return (uint16_t)second_write_character(any_symbol());
    }
}

/* ---- what is heard ---- */

static void hear_one(uint16_t character) {
    if (heard.count < MOST_HEARD)
        heard.characters[heard.count++] = character;
}

size_t hear(const uint8_t *symbols, size_t count) {
    uint8_t bytes[WRITERS_ROOM];
    size_t start = heard.count;
    uint32_t characters = second_write_transmission(symbols, count, bytes, sizeof bytes) >> 8;
    for (size_t i = 0; i < characters; i++)
        hear_one((uint16_t)(bytes[2u * i] + 256u * bytes[2u * i + 1u]));
    return start;
}

void hear_strays(uint32_t most) {
    for (uint32_t i = chance(most + 1u); i > 0u; i--)
        hear_one(any_stray());
}

/* A piece of a phasing that leads to nothing. */
static void hear_stray_phasing(void) {
    size_t from = chance(16), to = from + chance(17u - (uint32_t)from);
    for (size_t i = from; i < to; i++) {
        uint32_t symbol = i % 2u == 0u ? 125u : 111u - (uint32_t)i / 2u;
        hear_one(one_in(8) ? any_stray() : (uint16_t)second_write_character(symbol));
    }
}

void cut(size_t beginning, size_t end) {
    size_t left = beginning + end < heard.count ? heard.count - beginning - end : 0u;
    for (size_t i = 0; i < left; i++)
        heard.characters[i] = heard.characters[beginning + i];
    heard.count = left;
}

bool heard_agrees(size_t room_size, bool odd) {
    uint8_t bytes[2u * MOST_HEARD + 1u];
    for (size_t i = 0; i < heard.count; i++) {
        bytes[2u * i] = (uint8_t)(heard.characters[i] % 256u);
        bytes[2u * i + 1u] = (uint8_t)(heard.characters[i] / 256u);
    }
    bytes[2u * heard.count] = any_byte();
    return transmission_reads_agree(bytes, 2u * heard.count + odd, room_size);
}

/* ---- damage ---- */

static void spoil(size_t at) {
    if (at < heard.count)
        heard.characters[at] = one_in(4) ? any_stray() : any_none();
}

/* Little of it is left: up to three of each. */
static void spoil_phasing(size_t start) {
    bool kept[16] = {false};
    for (uint32_t i = chance(4); i > 0u; i--)
        kept[2u * chance(6)] = true;
    for (uint32_t i = chance(5); i > 0u; i--)
        kept[2u * chance(8) + 1u] = true;
    for (size_t i = 0; i < 16u; i++)
        if (!kept[i] && i != 12u && i != 14u)
            spoil(start + i);
}

static void spoil_symbol(size_t start, size_t place, bool both) {
    spoil(start + 14u + 2u * place);
    if (both)
        spoil(start + 19u + 2u * place);
}

static void spoil_format(size_t start) {
    static const uint8_t places[] = {12, 14, 17, 19};
    for (size_t i = 0; i < 4u; i++)
        if (!one_in(6))
            spoil(start + places[i]);
}

static void spoil_run(size_t start) {
    size_t from = start + chance(74);
    for (uint32_t i = 0, length = chance(13); i < length; i++)
        spoil(from + i);
}

static void spoil_units(size_t start, uint32_t one_of) {
    for (size_t at = start; at < heard.count; at++)
        for (uint32_t unit = 0; unit < 10u; unit++)
            if (one_in(one_of))
                heard.characters[at] ^= (uint16_t)(1u << unit);
}

/* The modem has lost one character, or handed one over twice: from there on all is one off. */
static void slip(size_t start) {
    size_t at = start + chance(74);
    if (at >= heard.count)
        return;
    if (one_in(2)) {
        heard.count--;
        for (; at < heard.count; at++)
            heard.characters[at] = heard.characters[at + 1u];
        return;
    }
    hear_one(0);
    for (size_t i = heard.count - 1u; i > at; i--)
        heard.characters[i] = heard.characters[i - 1u];
}

static void damage(size_t start, size_t count) {
    switch (chance(10)) {
    case 0: spoil_phasing(start); return;
    case 1: spoil_symbol(start, 1u + chance((uint32_t)count - 1u), true); return;
    case 2: spoil_symbol(start, count - 1u - chance(3), one_in(2)); return; /* about the end */
    case 3: spoil_format(start); return;
    case 4: spoil_run(start); return;
    case 5: spoil_units(start, 10u + chance(1000)); return;
    case 6: slip(start); return;
    case 7: spoil(start + chance(16)); return;
    default: spoil(start + chance(74)); return;
    }
}

static void hear_damaged(uint32_t most) {
    uint8_t symbols[READERS_ROOM];
    size_t count = draw_list(symbols), start = hear(symbols, count);
    for (uint32_t i = chance(most + 1u); i > 0u; i--)
        damage(start, count);
}

static void cut_by_chance(void) {
    if (one_in(4))
        cut(chance(20), 0);
    if (one_in(3))
        cut(0, one_in(2) ? chance(16) : chance((uint32_t)heard.count + 1u));
}

void draw_heard(void) {
    heard.count = 0;
    if (one_in(3))
        hear_strays(20);
    if (one_in(4))
        hear_stray_phasing();
    hear_damaged(one_in(4) ? 0u : 3u);
    if (one_in(4))
        cut(0, chance(30)); /* the second one begins before the first has ended */
    if (one_in(4))
        hear_damaged(1);
    if (one_in(4))
        hear_stray_phasing();
    if (one_in(3))
        hear_strays(20);
    cut_by_chance();
}
