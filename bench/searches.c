/* Searches for the first sequence in what two receivers heard, drawn beforehand: in noise, and where the second one heard a call. */
#include "bench.h"
#include "../include/coast.h"
#include "../tests/compare/compare.h"
#include "../tests/receivers/trial.h"
#include "../tests/second/receivers.h"

#define KIB 1024u
#define SECOND_BYTES 120u /* 1200 units a second, ten to a symbol */
#define LONG_BYTES (64u * KIB)
#define LONGER_BYTES (16u * LONG_BYTES)
#define RECEIVERS 2u
#define NOISE_BYTES (2u * RECEIVERS * LONGER_BYTES) /* too many for a processor to learn which way each branch goes */
#define CALLS 4096u

const uint32_t drawn_noise = NOISE_BYTES / KIB;
const uint32_t drawn_calls = CALLS;
static uint8_t noise[NOISE_BYTES], calls[CALLS][RECEIVERS][SECOND_BYTES];

static const struct finder_trial sides[SIDES] = {
    [LIBRARY] = {"library", coast_find_sequence},
    [SECOND] = {"second implementation", second_find_sequence},
};

static void draw_noise(uint8_t *bytes, size_t size) {
    for (size_t i = 0; i < size; i++)
        bytes[i] = (uint8_t)chance(128u);
}

void draw_receivers(void) {
    begin_chance(70);
    draw_noise(noise, sizeof noise);
    draw_noise(&calls[0][0][0], sizeof calls);
    for (size_t i = 0; i < CALLS; i++) {
        uint8_t symbols[LONGEST];
        size_t length = draw_sequence(symbols), place = chance(SECOND_BYTES - LONGEST);
        for (size_t k = 0; k < length; k++)
            calls[i][1][place + k] = symbols[k];
    }
}

/* All pieces of so many bytes from each receiver. */
static uint64_t find_in_pieces(enum side side, size_t bytes) {
    uint64_t sum = 0;
    for (size_t i = 0; i + RECEIVERS * bytes <= NOISE_BYTES; i += RECEIVERS * bytes)
        sum = sum * 3u + sides[side].find(noise + i, bytes, noise + i + bytes, bytes);
    return sum;
}

uint64_t find_in_seconds(enum side side) {
    return find_in_pieces(side, SECOND_BYTES);
}

uint64_t find_in_long_pieces(enum side side) {
    return find_in_pieces(side, LONG_BYTES);
}

uint64_t find_in_longer_pieces(enum side side) {
    return find_in_pieces(side, LONGER_BYTES);
}

uint64_t find_calls(enum side side) {
    uint64_t sum = 0;
    for (size_t i = 0; i < CALLS; i++)
        sum = sum * 3u + sides[side].find(calls[i][0], SECOND_BYTES, calls[i][1], SECOND_BYTES);
    return sum;
}
