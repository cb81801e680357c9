/* What bit noise does to transmissions of valid sequences: each unit of each character is flipped or not by itself. Counted,
 * not timed, and in whole numbers, so the same in every run. Prints what the library makes of them, and ends with 1 where
 * the second implementation makes something else of one, or where an answer is none of those that are counted.
 * Argument: how many transmissions for each rate. */
#include "../include/coast.h"
#include "../tests/compare/compare.h"
#include "../tests/second/bytes.h"
#include "../tests/second/transmission.h"
#include "bench.h"

extern int printf(const char *, ...);
extern unsigned long strtoul(const char *text, char **end, int base);

#define TRANSMISSIONS 100000u
#define SEED 493u

enum outcome { RIGHT, NO_PHASING, COPIES_BAD, ENDS_EARLY, SEQUENCE_REFUSED, WRONG, OUTCOMES, UNKNOWN };

static const struct receiver {
    uint32_t (*transmission)(const uint8_t *characters, size_t size, uint8_t *room, size_t room_size);
    uint32_t (*sequence)(const uint8_t *symbols, size_t count, uint8_t *meaning, size_t size);
} receivers[SIDES] = {
    [LIBRARY] = {coast_read_transmission, coast_read_sequence},
    [SECOND] = {second_read_transmission, second_read_bytes},
};

/* A valid sequence and its transmission. */
struct sent {
    uint8_t symbols[LONGEST], bytes[CHARACTER_BYTES * LONGEST_TRANSMISSION];
    size_t count, size;
};

static struct sent draw_sent(void) {
    struct sent sent;
    sent.count = draw_sequence(sent.symbols);
    sent.size = CHARACTER_BYTES * (second_write_transmission(sent.symbols, sent.count, sent.bytes, sizeof sent.bytes) >> 8);
    return sent;
}

static bool same_meaning(const uint8_t *a, const uint8_t *b) {
    bool same = true;
    for (size_t i = 0; i < MEANING_BYTES; i++)
        same = same && a[i] == b[i];
    return same;
}

static enum outcome unknown(const char *what, uint32_t answer) {
    printf("noise: the answer %u to a %s is none that is counted\n", (unsigned)answer, what);
    return UNKNOWN;
}

static enum outcome receive(const struct receiver *receiver, const struct sent *sent) {
    uint8_t symbols[LONGEST], meaning[MEANING_BYTES], told[MEANING_BYTES];
    uint32_t returned = receiver->transmission(sent->bytes, sent->size, symbols, sizeof symbols);
    switch (returned & 255u) {
    case 0: break;
    case 51: return NO_PHASING;
    case 52: return COPIES_BAD;
    case 53: return ENDS_EARLY;
    default: return unknown("transmission", returned & 255u);
    }
    uint32_t refused = receiver->sequence(symbols, returned >> 8, told, sizeof told);
    if (refused != 0u)
        return refused >= 11u && refused <= 20u ? SEQUENCE_REFUSED : unknown("sequence", refused);
    (void)receiver->sequence(sent->symbols, sent->count, meaning, sizeof meaning);
    return same_meaning(meaning, told) ? RIGHT : WRONG;
}

/* Prints a row; false where the two differ, or an answer is not known. */
static bool receive_all(uint32_t of_a_thousand, uint32_t transmissions) {
    unsigned times[OUTCOMES] = {0};
    for (uint32_t i = 0; i < transmissions; i++) {
        struct sent sent = draw_sent();
        flip_units(sent.bytes, sent.size, of_a_thousand);
        enum outcome outcome = receive(&receivers[LIBRARY], &sent);
        if (receive(&receivers[SECOND], &sent) != outcome) {
            printf("noise: the two differ\n");
            return false;
        }
        if (outcome == UNKNOWN)
            return false;
        times[outcome]++;
    }
    printf("| %2u of 1,000 |", (unsigned)of_a_thousand);
    for (enum outcome outcome = RIGHT; outcome < OUTCOMES; outcome++)
        printf(" %6u |", times[outcome]);
    printf("\n");
    return true;
}

int main(int count, char **words) {
    static const uint32_t rates[] = {1, 10, 30};
    uint32_t transmissions = count > 1 ? (uint32_t)strtoul(words[1], NULL, 10) : TRANSMISSIONS;
    bool same = true;
    printf("%u transmissions a row\n\n", (unsigned)transmissions);
    printf("| units flipped | read right | 51 no phasing | 52 copies bad | 53 ends early | 11 to 20 | read wrongly |\n");
    printf("|---|---|---|---|---|---|---|\n");
    begin_chance(SEED);
    for (size_t i = 0; i < sizeof rates / sizeof rates[0]; i++)
        same = receive_all(rates[i], transmissions) && same;
    return same ? 0 : 1;
}
