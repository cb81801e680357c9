/* Writes and reads of transmissions, drawn beforehand: each of a valid sequence. */
#include "bench.h"
#include "../include/coast.h"
#include "../tests/compare/compare.h"
#include "../tests/second/transmission.h"
#include "../tests/transmissions/trial.h"

#define DRAWN 4096u /* too many for a processor to learn which way each branch goes */
#define STRAYS 10u  /* at most so many before a transmission, and behind it */
#define MOST_BYTES (CHARACTER_BYTES * (STRAYS + LONGEST_TRANSMISSION + STRAYS))

struct given {
    size_t size;
    uint8_t bytes[MOST_BYTES];
};

const uint32_t drawn_transmissions = DRAWN;
static uint8_t sequences[DRAWN][LONGEST];
static size_t lengths[DRAWN];
static struct given whole[DRAWN], noisy[DRAWN], among_strays[DRAWN];

static const struct air_trial sides[SIDES] = {
    [LIBRARY] = {"library", coast_write_character, coast_read_character, coast_write_transmission, coast_read_transmission},
    [SECOND] = {"second implementation", second_write_character, second_read_character, second_write_transmission,
        second_read_transmission},
};

static void give_transmission(struct given *given, size_t which) {
    uint8_t *room = given->bytes + given->size;
    uint32_t returned = second_write_transmission(sequences[which], lengths[which], room, MOST_BYTES - given->size);
    given->size += CHARACTER_BYTES * (returned >> 8);
}

static void give_strays(struct given *given) {
    for (uint32_t i = chance(STRAYS + 1u); i > 0u; i--) {
        uint32_t character = chance(NO_CHARACTER);
        given->bytes[given->size++] = (uint8_t)(character % 256u);
        given->bytes[given->size++] = (uint8_t)(character / 256u);
    }
}

void draw_transmissions(void) {
    begin_chance(493);
    for (size_t i = 0; i < DRAWN; i++) {
        lengths[i] = draw_sequence(sequences[i]);
        give_transmission(&whole[i], i);
        give_transmission(&noisy[i], i);
        flip_units(noisy[i].bytes, noisy[i].size, 10);
        give_strays(&among_strays[i]);
        give_transmission(&among_strays[i], i);
        give_strays(&among_strays[i]);
    }
}

uint64_t write_transmissions(enum side side) {
    uint64_t sum = 0;
    uint8_t room[CHARACTER_BYTES * LONGEST_TRANSMISSION] = {0};
    for (size_t i = 0; i < DRAWN; i++) {
        sum += sides[side].write(sequences[i], lengths[i], room, sizeof room);
        sum = sum * 3u + room[i % sizeof room];
    }
    return sum;
}

static uint64_t read_each(enum side side, const struct given *given) {
    uint64_t sum = 0;
    uint8_t room[LONGEST] = {0};
    for (size_t i = 0; i < DRAWN; i++) {
        sum += sides[side].read(given[i].bytes, given[i].size, room, sizeof room);
        sum = sum * 3u + room[i % LONGEST];
    }
    return sum;
}

uint64_t read_whole(enum side side) {
    return read_each(side, whole);
}

uint64_t read_noisy(enum side side) {
    return read_each(side, noisy);
}

uint64_t read_among_strays(enum side side) {
    return read_each(side, among_strays);
}
