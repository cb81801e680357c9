/* Characters and transmissions, with answers worked out by hand: m493-facts has the first characters, the others were counted
 * bit by bit. */
#include <stdio.h>
#include <string.h>
#include "transmission.h"

#define NONE 0 /* the character of no symbol: 0 itself is sent as 896 */
#define P1_SYMBOLS 24u
#define P1_CHARACTERS 66u
#define MOST_CHARACTERS 160u

static const uint8_t P1[P1_SYMBOLS] = {
    123, 0, 20, 1, 23, 40, 100, 20, 0, 56, 78, 90, 101, 126, 126, 126, 126, 105, 5, 55, 12, 34, 117, 104};

/* P1 as it goes on the air, a DX and an RX character a line. */
static const uint16_t P1_on_the_air[P1_CHARACTERS] = {
    637, 623, /* 125, 111 */
    637, 366, /* 125, 110 */
    637, 365, /* 125, 109 */
    637, 876, /* 125, 108 */
    637, 363, /* 125, 107 */
    637, 874, /* 125, 106 */
    635, 873, /* 123, 105 */
    635, 232, /* 123, 104 */
    896, 635, /*   0, 123 */
    660, 635, /*  20, 123 */
    385, 896, /*   1,   0 */
    791, 660, /*  23,  20 */
    680, 385, /*  40,   1 */
    228, 791, /* 100,  23 */
    660, 680, /*  20,  40 */
    896, 228, /*   0, 100 */
    184, 660, /*  56,  20 */
    846, 896, /*  78,   0 */
    858, 184, /*  90,  56 */
    869, 846, /* 101,  78 */
    638, 858, /* 126,  90 */
    638, 869, /* 126, 101 */
    638, 638, /* 126, 126 */
    638, 638, /* 126, 126 */
    873, 638, /* 105, 126 */
    645, 638, /*   5, 126 */
    311, 873, /*  55, 105 */
    652, 645, /*  12,   5 */
    674, 311, /*  34,  55 */
    373, 652, /* 117,  12 */
    232, 674, /* 104,  34 */
    373, 373, /* 117, 117 */
    373, 232, /* 117, 104 */
};

static uint16_t heard[MOST_CHARACTERS];
static size_t heard_count;
static uint8_t came_out[28];
static int failures;

static void want(const char *what, uint32_t got, uint32_t wanted) {
    if (got == wanted)
        return;
    failures++;
    printf("%s: got %u, wanted %u\n", what, (unsigned)got, (unsigned)wanted);
}

/* ---- what is heard ---- */

static void add(uint16_t character) {
    heard[heard_count++] = character;
}

static void add_P1(void) {
    for (size_t i = 0; i < P1_CHARACTERS; i++)
        add(P1_on_the_air[i]);
}

static void hear_P1(void) {
    heard_count = 0;
    add_P1();
}

/* P1 without so many characters at its beginning. */
static void hear_P1_from(size_t first) {
    heard_count = 0;
    for (size_t i = first; i < P1_CHARACTERS; i++)
        add(P1_on_the_air[i]);
}

/* A list of 28 symbols, ones but for another at each of these two places. */
static void hear_ends(uint8_t end, size_t first, size_t second) {
    uint8_t symbols[28], bytes[148];
    memset(symbols, 1, sizeof symbols);
    symbols[first] = symbols[second] = end;
    want("28 symbols written", second_write_transmission(symbols, 28, bytes, sizeof bytes), 256u * 74u);
    for (heard_count = 0; heard_count < 74u;) {
        const uint8_t *character = bytes + 2u * heard_count;
        add((uint16_t)(character[0] + 256u * character[1]));
    }
}

/* Of the phasing only what these letters tell, place by place: DX, then RX. */
static void keep_phasing(const char *dx, const char *rx) {
    for (size_t i = 0; i < 6u; i++)
        if (dx[i] == '-')
            heard[2u * i] = NONE;
    for (size_t i = 0; i < 8u; i++)
        if (rx[i] == '-')
            heard[2u * i + 1u] = NONE;
}

/* ---- reading it ---- */

/* In bytes, so many of them and a room of so many; with a refusal the room must stay. */
static uint32_t read_bytes(size_t size, size_t room_size) {
    uint8_t bytes[2u * MOST_CHARACTERS];
    for (size_t i = 0; i < heard_count; i++) {
        bytes[2u * i] = (uint8_t)(heard[i] % 256u);
        bytes[2u * i + 1u] = (uint8_t)(heard[i] / 256u);
    }
    memset(came_out, 200, sizeof came_out);
    uint32_t returned = second_read_transmission(bytes, size, came_out, room_size);
    for (size_t i = returned / 256u; i < sizeof came_out; i++)
        want("no byte behind the symbols is touched", came_out[i], 200);
    return returned;
}

static void want_read(const char *what, uint32_t returned) {
    want(what, read_bytes(2u * heard_count, sizeof came_out), returned);
}

static void want_P1(const char *what) {
    want_read(what, 256u * P1_SYMBOLS);
    if (memcmp(came_out, P1, sizeof P1) != 0) {
        failures++;
        printf("%s: other symbols than P1's\n", what);
    }
}

/* ---- the tries ---- */

static void try_characters(void) {
    static const struct {
        uint16_t symbol, character;
    } pairs[] = {{0, 896}, {1, 385}, {2, 386}, {3, 643}, {127, 127}, {99, 867}, {100, 228}, {104, 232}, {105, 873}, {106, 874},
        {107, 363}, {108, 876}, {109, 365}, {110, 366}, {111, 623}, {117, 373}, {122, 378}, {125, 637}, {126, 638}, {64, 448},
        {63, 575}};
    uint32_t symbols = 0;
    for (size_t i = 0; i < sizeof pairs / sizeof pairs[0]; i++) {
        want("a character", second_write_character(pairs[i].symbol), pairs[i].character);
        want("a symbol", second_read_character(pairs[i].character), pairs[i].symbol);
        for (uint32_t unit = 0; unit < 10u; unit++)
            want("one unit changed", second_read_character(pairs[i].character ^ 1u << unit), NO_SYMBOL);
        want("1024 more", second_read_character(pairs[i].character + 1024u), NO_SYMBOL);
        want("65536 more", second_read_character(pairs[i].character + 65536u), NO_SYMBOL);
    }
    for (uint32_t character = 0; character < 1024u; character++)
        symbols += second_read_character(character) != NO_SYMBOL;
    want("characters of symbols", symbols, 128);
    want("symbol 128", second_write_character(128), NO_CHARACTER);
    want("symbol 256", second_write_character(256), NO_CHARACTER);
    want("the highest symbol", second_write_character(UINT32_MAX), NO_CHARACTER);
    want("the highest character", second_read_character(UINT32_MAX), NO_SYMBOL);
}

static uint32_t written(const uint8_t *symbols, size_t count, size_t room_size) {
    uint8_t room[150];
    memset(room, 200, sizeof room);
    uint32_t returned = second_write_transmission(symbols, count, room, room_size);
    for (size_t i = 2u * (returned / 256u); i < sizeof room; i++)
        want("no byte behind the transmission is touched", room[i], 200);
    return returned;
}

static void try_writing(void) {
    uint8_t room[148], symbols[29];
    want("P1 written", second_write_transmission(P1, sizeof P1, room, sizeof room), 256u * P1_CHARACTERS);
    for (size_t i = 0; i < P1_CHARACTERS; i++)
        want("P1's character", room[2u * i] + 256u * room[2u * i + 1u], P1_on_the_air[i]);
    memset(symbols, 127, sizeof symbols);
    want("no symbols", written(NULL, 0, 148), 11);
    want("20 symbols", written(symbols, 20, 148), 11);
    want("21 symbols", written(symbols, 21, 148), 256u * 60u);
    want("28 symbols", written(symbols, 28, 148), 256u * 74u);
    want("28 symbols and more room", written(symbols, 28, 149), 256u * 74u);
    want("29 symbols", written(symbols, 29, 148), 11);
    symbols[20] = 128;
    want("the last over 127", written(symbols, 21, 148), 12);
    want("one behind the last over 127", written(symbols, 20, 148), 11);
    want("21 before 12", written(symbols, 21, 147), 21);
    want("21 before 11", written(NULL, 0, 0), 21);
    symbols[0] = 255;
    want("11 before 12", written(symbols, 29, 148), 11);
}

static void try_phasing(void) {
    static const struct {
        const char *what, *dx, *rx;
        uint32_t returned;
    } kept[] = {
        {"three RX", "------", "R--R---R", 256u * P1_SYMBOLS},
        {"the last three RX", "------", "-----RRR", 256u * P1_SYMBOLS},
        {"two DX, one RX", "D----D", "---R----", 256u * P1_SYMBOLS},
        {"one DX, two RX", "---D--", "R------R", 256u * P1_SYMBOLS},
        {"all DX, one RX", "DDDDDD", "-------R", 256u * P1_SYMBOLS},
        {"two RX", "------", "RR------", 51},
        {"one DX, one RX", "D-----", "R-------", 51},
        {"six DX", "DDDDDD", "--------", 51},
        {"one RX", "------", "----R---", 51},
        {"nothing", "------", "--------", 51},
    };
    for (size_t i = 0; i < sizeof kept / sizeof kept[0]; i++) {
        hear_P1();
        keep_phasing(kept[i].dx, kept[i].rx);
        want_read(kept[i].what, kept[i].returned);
    }
    hear_P1();
    keep_phasing("------", "RR------");
    heard[4] = 125; /* the seven bits of a 125, and a wrong count */
    want_read("a spoiled phasing character", 51);
    heard_count = 0;
    want_read("nothing handed in", 51);
    want("nothing at all", second_read_transmission(NULL, 0, came_out, sizeof came_out), 51);
    add(623);
    want_read("one character", 51);
    want("a single byte", read_bytes(1, 28), 51);
}

static void try_starts(void) {
    for (size_t lost = 0; lost <= 11u; lost++) {
        hear_P1_from(lost);
        want_P1("up to eleven lost");
    }
    hear_P1_from(11);
    heard[2] = NONE;
    want_read("eleven lost and one of three RX bad", 51);
    hear_P1_from(12);
    want_read("twelve lost", 51);
    heard_count = 0;
    add(623);
    add_P1();
    want_P1("a stray 111 right before it");
    heard_count = 0;
    for (size_t i = 0; i < 40u; i++)
        add(i % 2u == 0u ? 637 : NONE);
    add_P1();
    want_P1("stray 125s before it");
    hear_P1();
    heard[12] = heard[14] = heard[17] = heard[19] = 127; /* of symbol 127 */
    add_P1();
    want_read("of two whole ones the first", 256u * P1_SYMBOLS);
    want("its format", came_out[0], 127);
    heard[3] = NONE;
    want_P1("the second has more phasing");
    heard[P1_CHARACTERS + 4u] = NONE;
    want_read("both have lost one", 256u * P1_SYMBOLS);
    want("the first one's format", came_out[0], 127);
}

static void try_copies(void) {
    hear_P1();
    heard[16] = NONE;
    want_P1("a first copy bad");
    heard[16] = 1023;
    heard[20] = 65535;
    want_P1("two first copies bad");
    heard[21] = 364;
    want_read("both copies of one", 52);
    hear_P1();
    heard[16] = 385;
    want_read("another symbol is believed", 256u * P1_SYMBOLS);
    want("the first copy", came_out[1], 1);
    hear_P1();
    heard[21] = 385;
    want_P1("a repeat is looked at only where it must be");
    for (size_t bad = 0; bad < 5u; bad++)
        heard[30u + bad] = NONE;
    want_P1("five in a row bad");
    heard[35] = NONE;
    want_read("six in a row bad", 52);
}

static void try_format(void) {
    hear_P1();
    heard[17] = 127;
    want_P1("the second place before the third");
    heard[12] = NONE;
    want_P1("the second place");
    heard[14] = NONE;
    want_read("the third place", 256u * P1_SYMBOLS);
    want("the format", came_out[0], 127);
    heard[17] = NONE;
    want_P1("the fourth place");
    heard[19] = NONE;
    want_read("no format", 52);
    heard_count = 19;
    want_read("the fourth place not there", 53);
}

static void try_early_ends(void) {
    hear_P1();
    heard_count = 61;
    want_P1("no repeat of the check is there");
    want("half a character behind", read_bytes(2u * 61u + 1u, 28), 256u * P1_SYMBOLS);
    want("half of the check", read_bytes(2u * 61u - 1u, 28), 53);
    heard_count = 60;
    want_read("no check", 53);
    heard_count = 58;
    want_read("no end of sequence", 53);
    heard_count = 16;
    want_read("phasing alone", 53);
    heard_count = 4;
    want_read("a little of the phasing", 53);
    heard_count = 2;
    want_read("too little of it", 51);
    hear_P1();
    heard[60] = NONE;
    want_P1("the repeat of the check");
    want("half of the repeat", read_bytes(2u * P1_CHARACTERS - 1u, 28), 53);
    heard[65] = NONE;
    want_read("both copies of the check", 52);
    heard_count = 65;
    want_read("one bad, one not there", 53);
    heard[20] = heard[25] = NONE;
    want_read("52 before 53", 52);
    heard_count = 25;
    want_read("the repeat not there: 53", 53);
}

static void try_ends(void) {
    static const struct {
        uint8_t first, second, count;
    } ends[] = {{18, 18, 28}, {18, 19, 21}, {19, 20, 21}, {19, 27, 21}, {20, 26, 22}, {25, 27, 27}, {26, 27, 28}, {27, 27, 28},
        {0, 1, 28}};
    static const uint8_t symbols[] = {117, 122, 127, 116, 118, 121, 123, 126};
    for (size_t i = 0; i < sizeof ends / sizeof ends[0]; i++)
        for (size_t j = 0; j < sizeof symbols; j++) {
            hear_ends(symbols[j], ends[i].first, ends[i].second);
            want_read("the first end from 19 on", 256u * (j < 3u ? ends[i].count : 28u));
        }
    hear_ends(127, 19, 22);
    heard[14 + 2 * 19] = NONE;
    want_read("an end by its repeat", 256u * 21u);
    heard[19 + 2 * 19] = NONE;
    want_read("an unreadable end", 52);
    hear_ends(127, 19, 22);
    heard[14 + 2 * 23] = heard[19 + 2 * 23] = NONE;
    want_read("both copies bad behind the end", 256u * 21u);
    hear_P1();
    heard[14 + 2 * 22] = heard[19 + 2 * 22] = NONE; /* two more ends are there */
    want_read("P1's end unreadable", 52);
}

static void try_rooms(void) {
    hear_P1();
    want("a room of 28", read_bytes(2u * P1_CHARACTERS, 28), 256u * P1_SYMBOLS);
    want("a room of 27", read_bytes(2u * P1_CHARACTERS, 27), 21);
    want("21 before 51", second_read_transmission(NULL, 0, NULL, 0), 21);
}

int main(void) {
    try_characters();
    try_writing();
    try_phasing();
    try_starts();
    try_copies();
    try_format();
    try_early_ends();
    try_ends();
    try_rooms();
    return failures == 0 ? 0 : 1;
}
