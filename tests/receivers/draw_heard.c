/* What both receivers heard, by chance: sequences whole and broken, one behind, over and inside the other, and fading. */
#include "receivers.h"

/* ---- what is no sequence, or is one by chance alone ---- */

/* Another value in one field, the check put right as often as not. */
static void hear_damaged(struct heard *one) {
    uint8_t symbols[MOST_SYMBOLS];
    size_t count = damage_sequence(symbols, draw_sequence(symbols));
    if (one_in(2))
        put_check_right(symbols, count);
    hear(one, symbols, count);
}

/* A piece of a sequence: its beginning, its end or its middle. */
static void hear_piece(struct heard *one) {
    uint8_t symbols[LONGEST];
    size_t count = draw_sequence(symbols);
    size_t from = one_in(2) ? 0u : one_in(2) ? 1u : chance((uint32_t)count);
    size_t to = one_in(2) ? count : one_in(2) ? count - 1u : from + chance((uint32_t)(count - from));
    if (to > from)
        hear(one, symbols + from, to - from);
}

/* The symbols that every sequence has, and anything between them, the ends too. */
static void hear_look_alike(struct heard *one) {
    uint8_t symbols[MOST_SYMBOLS];
    size_t count = 18u + chance(15);
    for (size_t i = 0; i < count; i++)
        symbols[i] = one_in(8) ? 123u : one_in(4) ? 117u : (uint8_t)chance(128);
    symbols[0] = 123;
    symbols[6] = 100;
    symbols[17] = (uint8_t)(105u + chance(2));
    if (one_in(2))
        put_check_right(symbols, count);
    hear(one, symbols, count);
}

static void hear_formats(struct heard *one) {
    for (uint32_t i = chance(30); i > 0u; i--)
        hear_one(one, 123);
}

static void hear_broken(struct heard *one) {
    switch (chance(6)) {
    case 0: hear_piece(one); return;
    case 1: hear_look_alike(one); return;
    case 2: hear_formats(one); return;
    case 3: hear_strays(one, 30); return;
    default: hear_damaged(one); return;
    }
}

/* ---- sequences ---- */

static void hear_whole(struct heard *one) {
    uint8_t symbols[LONGEST];
    hear(one, symbols, draw_sequence(symbols));
}

/* One sequence, and a whole one inside of it. */
static void hear_nested(struct heard *one) {
    uint8_t outer[LONGEST];
    size_t count = draw_sequence(outer), kept = chance((uint32_t)count);
    hear(one, outer, kept);
    hear_whole(one);
    hear(one, outer + kept, count - kept);
}

/* One that begins in another's bytes: anywhere, or where its end or its check stands. The check may be a format as well. */
static void hear_overlapping(struct heard *one) {
    uint8_t symbols[LONGEST];
    size_t place = one->size, count = draw_sequence(symbols);
    size_t step = one_in(3) ? chance((uint32_t)count) : count - 1u - chance(2), spoiled = chance((uint32_t)count - 1u);
    if (one_in(2) && end_with_format(symbols, count))
        step = count - 1u;
    if (one_in(2))
        symbols[spoiled] = any_byte();
    hear(one, symbols, count);
    hear_at(one, place + step, symbols, draw_sequence(symbols));
}

static void hear_good(struct heard *one) {
    switch (chance(4)) {
    case 0: hear_nested(one); return;
    case 1: hear_overlapping(one); return;
    default: hear_whole(one); return;
    }
}

/* ---- one receiver ---- */

static void cut_by_chance(struct heard *one) {
    size_t much = chance(200); /* drawn by itself: the order of two arguments is the compiler's */
    switch (chance(10)) {
    case 0: cut(one, chance(40), 0); return;
    case 1: cut(one, 0, chance(40)); return;
    case 2: cut(one, much, chance(200)); return;
    case 3: cut(one, 0, 1); return;
    case 4: cut(one, 1, 0); return;
    default: return;
    }
}

static void draw_one(struct heard *one) {
    if (one_in(2))
        hear_strays(one, one_in(8) ? 200u : 30u);
    for (uint32_t i = chance(4); i > 0u; i--)
        hear_broken(one);
    if (one_in(2))
        hear_good(one);
    for (uint32_t i = one_in(2) ? 0u : chance(3); i > 0u; i--)
        if (one_in(2))
            hear_good(one);
        else
            hear_broken(one);
    if (one_in(4))
        hear_strays(one, 40);
}

/* ---- both ---- */

/* A run of bytes turned to noise, or over 127. */
static void fade(struct heard *one) {
    if (one->size == 0u)
        return;
    size_t at = chance((uint32_t)one->size);
    bool noise = one_in(2);
    for (uint32_t i = one_in(3) ? 1u : 1u + chance(50); i > 0u && at < one->size; i--, at++)
        one->bytes[one->from + at] = noise ? any_byte() : (uint8_t)(one->bytes[one->from + at] | 128u);
}

/* The same for both, and "fading kills one aerial at a time". */
static void draw_fading(void) {
    draw_one(&heard[0]);
    if (one_in(2))
        hear_good(&heard[0]);
    heard[1] = heard[0];
    for (uint32_t i = 1u + chance(5); i > 0u; i--)
        fade(&heard[one_in(3)]);
}

static void draw_apart(void) {
    draw_one(&heard[0]);
    draw_one(&heard[1]);
}

void draw_both(void) {
    silence();
    switch (chance(8)) {
    case 0: draw_one(&heard[0]); break; /* the other hears nothing */
    case 1: draw_one(&heard[1]); break;
    case 2:
    case 3:
    case 4: draw_fading(); break;
    default: draw_apart(); break;
    }
    cut_by_chance(&heard[0]);
    cut_by_chance(&heard[1]);
}
