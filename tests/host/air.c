/* The host beside its modem: characters and transmissions, through the header. */
#include "../../include/coast_words.h"
#include "../c/checked.h"
#include "checks.h"
#include "lent.h"

/* The ten units of a symbol in the order sent, Y for 1 and B for 0: the first five as M.493 has them, the others by hand. */
struct worked {
    uint32_t symbol;
    const char *units;
};

static const struct worked worked[] = {
    {0, "BBBBBBBYYY"},
    {1, "YBBBBBBYYB"},
    {2, "BYBBBBBYYB"},
    {3, "YYBBBBBYBY"},
    {127, "YYYYYYYBBB"},
    {99, "YYBBBYYBYY"},
    {100, "BBYBBYYYBB"},
    {104, "BBBYBYYYBB"},
    {105, "YBBYBYYBYY"},
    {106, "BYBYBYYBYY"},
    {107, "YYBYBYYBYB"},
    {108, "BBYYBYYBYY"},
    {109, "YBYYBYYBYB"},
    {110, "BYYYBYYBYB"},
    {111, "YYYYBYYBBY"},
    {117, "YBYBYYYBYB"},
    {122, "BYBYYYYBYB"},
    {125, "YBYYYYYBBY"},
};

static uint32_t number_of(const char *units) {
    uint32_t number = 0;
    for (uint32_t i = 0; i < 10u; i++)
        if (units[i] == 'Y')
            number |= 1u << i;
    return number;
}

static void try_characters(void) {
    for (size_t i = 0; i < sizeof worked / sizeof worked[0]; i++) {
        uint32_t character = number_of(worked[i].units);
        want("a character", coast_write_character(worked[i].symbol), character);
        want("its symbol", coast_read_character(character), worked[i].symbol);
        for (uint32_t unit = 0; unit < 10u; unit++)
            want("one unit changed", coast_read_character(character ^ 1u << unit), COAST_NO_SYMBOL);
    }
    static const uint32_t over[] = {128, 255, 256, 383, 65536, UINT32_MAX};
    for (size_t i = 0; i < sizeof over / sizeof over[0]; i++)
        want("no symbol's character", coast_write_character(over[i]), COAST_NO_CHARACTER);
    for (uint32_t above = 1024; above != 0; above <<= 1)
        want("no character's symbol", coast_read_character(above + 896u), COAST_NO_SYMBOL);
}

/* P1 on the air, in the order sent: DX and RX side by side. */
static const uint8_t p1_sent[] = {
    125, 111, 125, 110, 125, 109, 125, 108, 125, 107, 125, 106, /* six DX and the first of eight RX phasing symbols .. */
    123, 105, 123, 104,                                         /* .. the last two beside the format, which stands twice */
    0, 123, 20, 123, 1, 0, 23, 20, 40, 1, 100, 23, 20, 40, 0, 100, 56, 20, 78, 0, 90, 56, 101, 78, 126, 90, 126, 101, 126, 126,
    126, 126, 105, 126, 5, 126, 55, 105, 12, 5, 34, 55, /* each symbol, and beside it the one of two places before */
    117, 12, 104, 34, 117, 117, 117, 104,               /* end, check, end, end; RX goes on to its end and its check */
};

#define P1_SIZE (2u * sizeof p1_sent)

static void put_p1(uint8_t *bytes) {
    for (size_t i = 0; i < sizeof p1_sent; i++)
        coast_put_character(bytes, i, coast_write_character(p1_sent[i]));
}

/* Writes into lent memory of any size; a refusal must change nothing. */
static uint32_t write_lent(const uint8_t *symbols, size_t count, size_t room_size, bool at_end, uint8_t *characters) {
    uint8_t *in = lend(FOR_SYMBOLS, count, at_end, 170), *out = lend(FOR_ACTIONS, room_size, at_end, 85);
    copy(in, symbols, count);
    uint32_t returned = coast_write_transmission(in, count, out, room_size);
    size_t written = 2u * coast_count(returned);
    want_true("the symbols stay", equal(in, symbols, count) && left_alone(FOR_SYMBOLS, in, count, 170));
    want_true("only the transmission is written", left_alone(FOR_ACTIONS, out, written, 85));
    copy(characters, out, written);
    return returned;
}

/* The same of reading. */
static uint32_t read_lent(const uint8_t *characters, size_t size, size_t room_size, bool at_end, uint8_t *symbols) {
    uint8_t *in = lend(FOR_ACTIONS, size, at_end, 170), *out = lend(FOR_ROOM, room_size, at_end, 85);
    copy(in, characters, size);
    uint32_t returned = coast_read_transmission(in, size, out, room_size);
    want_true("the characters stay", equal(in, characters, size) && left_alone(FOR_ACTIONS, in, size, 170));
    want_true("only the symbols are written", left_alone(FOR_ROOM, out, coast_count(returned), 85));
    copy(symbols, out, coast_count(returned));
    return returned;
}

static void try_p1(void) {
    uint8_t sent[P1_SIZE], characters[COAST_TRANSMISSION_SIZE], symbols[COAST_LONGEST_SEQUENCE];
    put_p1(sent);
    for (size_t at_end = 0; at_end < 2u; at_end++) {
        uint32_t returned = write_lent(checked[0], CHECKED_LENGTH, COAST_TRANSMISSION_SIZE, at_end != 0, characters);
        want("P1 on the air", returned, 256u * (uint32_t)sizeof p1_sent);
        want_true("its characters", equal(characters, sent, P1_SIZE));
        returned = read_lent(sent, P1_SIZE, COAST_LONGEST_SEQUENCE, at_end != 0, symbols);
        want("P1 off the air", returned, 256u * CHECKED_LENGTH);
        want_true("its symbols", equal(symbols, checked[0], CHECKED_LENGTH));
    }
}

/* P1 with so many characters missing at its beginning, or none from a place on. */
static uint32_t read_damaged(size_t lost, size_t place, size_t count, uint8_t *symbols) {
    uint8_t sent[P1_SIZE];
    put_p1(sent);
    for (size_t i = place; i < place + count && i < sizeof p1_sent; i++)
        coast_put_character(sent, i, COAST_NO_CHARACTER);
    return read_lent(sent + 2u * lost, P1_SIZE - 2u * lost, COAST_LONGEST_SEQUENCE, true, symbols);
}

static void try_damage(void) {
    uint8_t symbols[COAST_LONGEST_SEQUENCE];
    for (size_t place = 0; place < sizeof p1_sent; place++) {
        want("five in a row", read_damaged(0, place, 5, symbols), 256u * CHECKED_LENGTH);
        want_true("made good", equal(symbols, checked[0], CHECKED_LENGTH));
    }
    for (size_t lost = 0; lost < 14u; lost++) {
        uint32_t returned = read_damaged(lost, 0, 0, symbols);
        want("lost at the beginning", returned, lost <= 11u ? 256u * CHECKED_LENGTH : COAST_ANSWER_NO_PHASING);
    }
    want("both copies of the first digits", read_damaged(0, 16, 6, symbols), COAST_ANSWER_COPIES_BAD);
}

/* What is answered to so many bytes of P1's transmission: it is read once the last symbol's first copy is there. */
static uint32_t wanted_of_read(size_t size, size_t room_size) {
    if (room_size < COAST_LONGEST_SEQUENCE)
        return COAST_ANSWER_ROOM_SHORT;
    if (size < 2u * 3u)
        return COAST_ANSWER_NO_PHASING;
    return size < 2u * (14u + 2u * 23u + 1u) ? COAST_ANSWER_ENDS_EARLY : 256u * CHECKED_LENGTH;
}

static uint32_t wanted_of_write(size_t count, size_t room_size) {
    if (room_size < COAST_TRANSMISSION_SIZE)
        return COAST_ANSWER_ROOM_SHORT;
    if (count < COAST_SHORTEST_SEQUENCE || count > COAST_LONGEST_SEQUENCE)
        return COAST_ANSWER_BAD_LENGTH;
    return 256u * 2u * (uint32_t)(count + 9u);
}

static void try_sizes(void) {
    uint8_t sent[P1_SIZE], many[40], characters[COAST_TRANSMISSION_SIZE], symbols[COAST_LONGEST_SEQUENCE];
    put_p1(sent);
    for (size_t i = 0; i < sizeof many; i++)
        many[i] = checked[0][i % CHECKED_LENGTH];
    for (size_t i = 0; i < 2u * (P1_SIZE + 1u); i++)
        for (size_t room_size = 26; room_size < 31u; room_size++)
            want("read, by the sizes", read_lent(sent, i / 2u, room_size, i % 2u != 0, symbols),
                wanted_of_read(i / 2u, room_size));
    for (size_t i = 0; i < 2u * sizeof many; i++)
        for (size_t room_size = 146; room_size < 151u; room_size++)
            want("written, by the sizes", write_lent(many, i / 2u, room_size, i % 2u != 0, characters),
                wanted_of_write(i / 2u, room_size));
    many[20] = 128;
    want("a symbol over 127", write_lent(many, CHECKED_LENGTH, 148, true, characters), COAST_ANSWER_BAD_SYMBOL);
    want("nothing to null", coast_write_transmission(NULL, 0, NULL, 0), COAST_ANSWER_ROOM_SHORT);
    want("null off the air to null", coast_read_transmission(NULL, 0, NULL, 0), COAST_ANSWER_ROOM_SHORT);
    want("null off the air", coast_read_transmission(NULL, 0, symbols, sizeof symbols), COAST_ANSWER_NO_PHASING);
}

void try_the_air(void) {
    try_characters();
    try_p1();
    try_damage();
    try_sizes();
}
