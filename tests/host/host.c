/* A host in C as the simulator's: calls the library through its header, and checks all that it hands back. */
#include "../../include/coast.h"
#include "../c/checked.h"
#include "checks.h"
#include "lent.h"

extern int printf(const char *, ...);

static void put_check_right(uint8_t *symbols, size_t count) {
    symbols[count - 1u] = 0;
    for (size_t i = 0; i + 1u < count; i++)
        symbols[count - 1u] = (uint8_t)(symbols[count - 1u] ^ symbols[i]);
}

/* What P1 to P6 mean: coast station 002001234, ship 200056789, number 5551234. */
#define COAST 82, 137, 30, 0
#define SHIP 213, 159, 236, 11
#define NUMBER 5, 5, 5, 1, 2, 3, 4, 0, 0, 0, 0, 0, 0, 0, 0, 0
static const uint8_t meant[CHECKED_COUNT][COAST_MEANING_SIZE] = {
    {COAST, SHIP, 101, 126, COAST_FIELD_BLANK, 0, 0, 0, 7, 117, NUMBER},
    {SHIP, COAST, 101, 126, COAST_FIELD_CHANNEL, 26, 0, 0, 7, 122, NUMBER},
    {SHIP, COAST, 104, 103, COAST_FIELD_BLANK, 0, 0, 0, 7, 122, NUMBER},
    {COAST, SHIP, 101, 126, COAST_FIELD_BLANK, 0, 0, 0, 7, 127, NUMBER},
    {COAST, SHIP, 105, 126, COAST_FIELD_BLANK, 0, 0, 0, 7, 117, NUMBER},
    {SHIP, COAST, 105, 126, COAST_FIELD_DURATION, 0, 6, 50, 7, 122, NUMBER},
};

/* Reads from and into lent memory; hands back the answer, and the meaning where it is 0. A refusal must change nothing. */
static uint32_t read_lent(const uint8_t *symbols, size_t count, size_t size, bool at_end, uint8_t *meaning) {
    uint8_t *in = lend(FOR_SYMBOLS, count, at_end, 170), *out = lend(FOR_MEANING, size, at_end, 85);
    copy(in, symbols, count);
    uint32_t answer = coast_read_sequence(in, count, out, size);
    want_true("the symbols stay", equal(in, symbols, count) && left_alone(FOR_SYMBOLS, in, count, 170));
    size_t written = answer == COAST_ANSWER_DONE ? COAST_MEANING_SIZE : 0u;
    want_true("only the meaning is written", left_alone(FOR_MEANING, out, written, 85));
    copy(meaning, out, written);
    return answer;
}

/* The same of writing: hands back what was returned, and the symbols where the answer is 0. */
static uint32_t write_lent(const uint8_t *meaning, size_t size, size_t room_size, bool at_end, uint8_t *symbols) {
    uint8_t *in = lend(FOR_MEANING, size, at_end, 170), *out = lend(FOR_ROOM, room_size, at_end, 85);
    copy(in, meaning, size);
    uint32_t returned = coast_write_sequence(in, size, out, room_size);
    size_t count = coast_count(returned);
    bool of_a_sequence = count >= COAST_SHORTEST_SEQUENCE && count <= COAST_LONGEST_SEQUENCE;
    want_true("the count goes with the answer", coast_answer(returned) == COAST_ANSWER_DONE ? of_a_sequence : count == 0u);
    want_true("the meaning stays", equal(in, meaning, size) && left_alone(FOR_MEANING, in, size, 170));
    want_true("only the sequence is written", left_alone(FOR_ROOM, out, count, 85));
    copy(symbols, out, of_a_sequence ? count : 0u);
    return returned;
}

static void try_checked(void) {
    uint8_t meaning[COAST_MEANING_SIZE], symbols[COAST_LONGEST_SEQUENCE];
    for (size_t i = 0; i < 2u * CHECKED_COUNT; i++) {
        const uint8_t *p = checked[i / 2u], *m = meant[i / 2u];
        bool at_end = i % 2u == 1u;
        want("P read", read_lent(p, CHECKED_LENGTH, COAST_MEANING_SIZE, at_end, meaning), COAST_ANSWER_DONE);
        want_true("what P means", equal(meaning, m, COAST_MEANING_SIZE));
        uint32_t returned = write_lent(m, COAST_MEANING_SIZE, COAST_LONGEST_SEQUENCE, at_end, symbols);
        want("P written", coast_answer(returned), COAST_ANSWER_DONE);
        want("P's length", (uint32_t)coast_count(returned), CHECKED_LENGTH);
        want_true("P's symbols", equal(symbols, p, CHECKED_LENGTH));
    }
}

static void try_no_bytes(void) {
    const uint8_t *p1 = checked[0];
    uint8_t *meaning = lend(FOR_MEANING, COAST_MEANING_SIZE, true, 85);
    uint8_t *room = lend(FOR_ROOM, COAST_LONGEST_SEQUENCE, true, 85);
    want("read null", coast_read_sequence(NULL, 0, meaning, COAST_MEANING_SIZE), COAST_ANSWER_BAD_LENGTH);
    want("read P1 into null", coast_read_sequence(p1, CHECKED_LENGTH, NULL, 0), COAST_ANSWER_MEANING_SHORT);
    want("read null into null", coast_read_sequence(NULL, 0, NULL, 0), COAST_ANSWER_MEANING_SHORT);
    want("write to null", coast_write_sequence(meant[0], COAST_MEANING_SIZE, NULL, 0), COAST_ANSWER_ROOM_SHORT);
    want("write null", coast_write_sequence(NULL, 0, room, COAST_LONGEST_SEQUENCE), COAST_ANSWER_MEANING_SHORT);
    want("write null to null", coast_write_sequence(NULL, 0, NULL, 0), COAST_ANSWER_ROOM_SHORT);
    want_true("nothing is written", left_alone(FOR_MEANING, meaning, 0, 85) && left_alone(FOR_ROOM, room, 0, 85));
}

/* What is answered to so many bytes of P2, told over and over, and to so many of its meaning. */
static uint32_t wanted_of_read(size_t count, size_t size) {
    if (size < COAST_MEANING_SIZE)
        return COAST_ANSWER_MEANING_SHORT;
    if (count < COAST_SHORTEST_SEQUENCE || count > COAST_LONGEST_SEQUENCE)
        return COAST_ANSWER_BAD_LENGTH;
    return count == CHECKED_LENGTH ? COAST_ANSWER_DONE : COAST_ANSWER_BAD_CHECK;
}

static uint32_t wanted_of_write(size_t size, size_t room_size) {
    if (room_size < COAST_LONGEST_SEQUENCE)
        return COAST_ANSWER_ROOM_SHORT;
    return size < COAST_MEANING_SIZE ? COAST_ANSWER_MEANING_SHORT : COAST_ANSWER_DONE;
}

/* Every length from 0 to 40 of what is read and of what is written, each at both ends of its memory. */
static void try_sizes(void) {
    uint8_t bytes[40], meaning[COAST_MEANING_SIZE], symbols[COAST_LONGEST_SEQUENCE];
    for (size_t i = 0; i < 41u * 41u * 2u; i++) {
        size_t in = i / 2u / 41u, out = i / 2u % 41u;
        bool at_end = i % 2u == 1u;
        for (size_t j = 0; j < sizeof bytes; j++)
            bytes[j] = checked[1][j % CHECKED_LENGTH];
        want("read, by the sizes", read_lent(bytes, in, out, at_end, meaning), wanted_of_read(in, out));
        for (size_t j = 0; j < sizeof bytes; j++)
            bytes[j] = j < COAST_MEANING_SIZE ? meant[1][j] : 9u;
        uint32_t returned = write_lent(bytes, in, out, at_end, symbols);
        want("write, by the sizes", coast_answer(returned), wanted_of_write(in, out));
    }
}

/* Two places of P1 or of its meaning made wrong, and the refusal that comes first. */
struct faults {
    uint8_t place, value, other_place, other_value;
    uint32_t answer;
};

static const struct faults of_symbols[] = {
    {0, 128, 1, 100, COAST_ANSWER_BAD_SYMBOL},
    {0, 122, 1, 100, COAST_ANSWER_BAD_FORMAT},
    {5, 41, 6, 101, COAST_ANSWER_BAD_IDENTITIES},
    {1, 20, 6, 101, COAST_ANSWER_BAD_IDENTITIES},
    {6, 101, 12, 102, COAST_ANSWER_BAD_CATEGORY},
    {12, 102, 14, 90, COAST_ANSWER_BAD_TELECOMMANDS},
    {14, 90, 17, 107, COAST_ANSWER_BAD_CHANNEL_FIELD},
    {17, 107, 22, 118, COAST_ANSWER_BAD_NUMBER},
    {18, 10, 22, 118, COAST_ANSWER_BAD_NUMBER},
    {22, 118, 22, 118, COAST_ANSWER_BAD_END},
};

static const struct faults of_bytes[] = {
    {3, 1, 8, 102, COAST_ANSWER_BAD_IDENTITIES},
    {7, 0, 8, 102, COAST_ANSWER_BAD_IDENTITIES},
    {8, 102, 10, 3, COAST_ANSWER_BAD_TELECOMMANDS},
    {9, 127, 10, 3, COAST_ANSWER_BAD_TELECOMMANDS},
    {10, 3, 14, 0, COAST_ANSWER_BAD_CHANNEL_FIELD},
    {13, 1, 14, 0, COAST_ANSWER_BAD_CHANNEL_FIELD},
    {10, 1, 11, 16, COAST_ANSWER_BAD_CHANNEL_FIELD},
    {14, 0, 15, 0, COAST_ANSWER_BAD_NUMBER},
    {14, 17, 15, 0, COAST_ANSWER_BAD_NUMBER},
    {22, 10, 15, 0, COAST_ANSWER_BAD_NUMBER},
    {23, 1, 15, 0, COAST_ANSWER_BAD_NUMBER},
    {15, 118, 15, 118, COAST_ANSWER_BAD_END},
};

/* Each with the check put right, and with a wrong check. */
static void try_refusals_to_read(void) {
    uint8_t symbols[CHECKED_LENGTH], meaning[COAST_MEANING_SIZE];
    for (size_t i = 0; i < sizeof of_symbols / sizeof of_symbols[0]; i++) {
        const struct faults *faults = &of_symbols[i];
        copy(symbols, checked[0], CHECKED_LENGTH);
        symbols[faults->place] = faults->value;
        symbols[faults->other_place] = faults->other_value;
        put_check_right(symbols, CHECKED_LENGTH);
        uint32_t answer = read_lent(symbols, CHECKED_LENGTH, COAST_MEANING_SIZE, true, meaning);
        want("a refusal to read", answer, faults->answer);
        symbols[CHECKED_LENGTH - 1] ^= 1u;
        answer = read_lent(symbols, CHECKED_LENGTH, COAST_MEANING_SIZE, true, meaning);
        want("with a wrong check", answer,
            faults->answer == COAST_ANSWER_BAD_SYMBOL ? COAST_ANSWER_BAD_SYMBOL : COAST_ANSWER_BAD_CHECK);
    }
}

static void try_refusals_to_write(void) {
    uint8_t symbols[COAST_LONGEST_SEQUENCE], meaning[COAST_MEANING_SIZE];
    for (size_t i = 0; i < sizeof of_bytes / sizeof of_bytes[0]; i++) {
        const struct faults *faults = &of_bytes[i];
        copy(meaning, meant[0], COAST_MEANING_SIZE);
        meaning[faults->place] = faults->value;
        meaning[faults->other_place] = faults->other_value;
        uint32_t returned = write_lent(meaning, COAST_MEANING_SIZE, COAST_LONGEST_SEQUENCE, true, symbols);
        want("a refusal to write", returned, faults->answer);
    }
}

static uint32_t garbage_state = 493;

static uint8_t garbage(void) {
    garbage_state = garbage_state * 1664525u + 1013904223u;
    return (uint8_t)(garbage_state >> 24);
}

/* These bytes, or none of them but garbage; then one more byte of garbage among the first so many. */
static void spoil(uint8_t *to, const uint8_t *from, size_t count, bool wholly) {
    for (size_t i = 0; i < count; i++)
        to[i] = wholly ? garbage() : from[i];
    size_t place = garbage() % count;
    to[place] = garbage();
}

/* What the reader accepts is written again as it was. */
static void read_garbage(const uint8_t *symbols, size_t count) {
    uint8_t meaning[COAST_MEANING_SIZE], again[COAST_LONGEST_SEQUENCE];
    uint32_t answer = read_lent(symbols, count, COAST_MEANING_SIZE, true, meaning);
    want_true("an answer of the list",
        answer == COAST_ANSWER_DONE || (answer >= COAST_ANSWER_BAD_LENGTH && answer <= COAST_ANSWER_BAD_END));
    if (answer != COAST_ANSWER_DONE)
        return;
    want("written again", write_lent(meaning, COAST_MEANING_SIZE, 40, true, again), (uint32_t)(count << 8));
    want_true("the same symbols", equal(again, symbols, count));
}

/* What the writer accepts is read again as it was. */
static void write_garbage(const uint8_t *meaning) {
    uint8_t again[COAST_MEANING_SIZE], symbols[COAST_LONGEST_SEQUENCE];
    uint32_t returned = write_lent(meaning, COAST_MEANING_SIZE, COAST_LONGEST_SEQUENCE, true, symbols);
    if (coast_answer(returned) != COAST_ANSWER_DONE)
        return;
    want("read again", read_lent(symbols, coast_count(returned), COAST_MEANING_SIZE, true, again), COAST_ANSWER_DONE);
    want_true("the same meaning", equal(again, meaning, COAST_MEANING_SIZE));
}

static void try_garbage(void) {
    uint8_t bytes[40];
    for (uint32_t i = 0; i < 20000u; i++) {
        bool wholly = i % 3u == 0u;
        size_t count = wholly ? 1u + garbage() % 40u : CHECKED_LENGTH;
        spoil(bytes, checked[i % CHECKED_COUNT], count, wholly);
        if (i % 2u == 0u)
            put_check_right(bytes, count);
        read_garbage(bytes, count);
        spoil(bytes, meant[i % CHECKED_COUNT], COAST_MEANING_SIZE, wholly);
        write_garbage(bytes);
    }
}

int main(void) {
    if (!set_up_lent()) {
        printf("host: no memory to lend\n");
        return 77;
    }
    try_checked();
    try_no_bytes();
    try_sizes();
    try_refusals_to_read();
    try_refusals_to_write();
    try_garbage();
    try_stations();
    try_the_air();
    try_the_mast();
    return all_as_wanted() ? 0 : 1;
}
