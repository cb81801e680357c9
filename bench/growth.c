/* How an event's time grows with what stands in the station: a tick with nothing due, which takes the station out of its
 * bytes, judges it and lays it again. */
#include "bench.h"
#include "../include/coast_words.h"

extern int printf(const char *, ...);
extern int snprintf(char *, size_t, const char *, ...);

#define COAST_IDENTITY 2320001u
#define FIRST_SHIP 232000001u
#define SLOTS 16u
#define NOW 1u
#define TICKS 1024u

/* A ship asks for a number ashore: it gets a slot while one is free, and waits otherwise. */
static bool call_from(uint32_t ship) {
    uint8_t symbols[COAST_LONGEST_SEQUENCE], meaning[COAST_MEANING_SIZE] = {0};
    coast_put_number(meaning + COAST_AT_ADDRESS, COAST_IDENTITY);
    coast_put_number(meaning + COAST_AT_SENDER, ship);
    meaning[COAST_AT_FIRST] = 100;
    meaning[COAST_AT_SECOND] = 126;
    meaning[COAST_AT_DIGIT_COUNT] = 8;
    meaning[COAST_AT_END] = 117;
    uint32_t written = coast_write_sequence(meaning, sizeof meaning, symbols, sizeof symbols);
    uint64_t heard =
        coast_heard_on_channel_70(lent.station, lent.size, NOW, symbols, coast_count(written), lent.room, lent.room_size);
    return coast_answer(written) == COAST_ANSWER_DONE && coast_answer(heard) == COAST_ANSWER_DONE;
}

static bool fill(uint32_t ships) {
    static const uint8_t channels[SLOTS] = {1, 2, 3, 4, 5, 6, 7, 8, 9, 10, 11, 12, 13, 14, 15, 17};
    bool done = coast_answer(coast_set_up(COAST_IDENTITY, channels, SLOTS, lent.station, lent.size)) == COAST_ANSWER_DONE;
    for (uint32_t i = 0; i < ships; i++)
        done = done && call_from(FIRST_SHIP + i);
    return done;
}

static uint64_t tick_often(enum side side) {
    const struct entries *entries = entries_of(side);
    uint64_t sum = 0;
    for (uint32_t i = 0; i < TICKS; i++)
        sum = sum * 3u + entries->tick(lent.station, lent.size, NOW, lent.room, lent.room_size);
    return sum;
}

bool time_growth(void) {
    static const uint32_t ships[] = {0, 4, 8, 16, 24, 32, 48};
    bool same = true;
    for (uint32_t i = 0; i < sizeof ships / sizeof ships[0]; i++) {
        char what[64];
        uint32_t taken = ships[i] < SLOTS ? ships[i] : SLOTS;
        snprintf(what, sizeof what, "a tick, %u slots taken, %u ships waiting", (unsigned)taken, (unsigned)(ships[i] - taken));
        if (!fill(ships[i])) {
            printf("bench: the station cannot be filled\n");
            return false;
        }
        same = time_both(what, tick_often, TICKS) && same;
    }
    return same;
}
