/* Reads and writes of valid sequences, drawn beforehand. */
#include "bench.h"
#include "../include/coast.h"
#include "../tests/compare/compare.h"
#include "../tests/second/bytes.h"

#define DRAWN 16384u  /* too many for a processor to learn which way each branch goes */
#define ROOMS 524288u /* a power of two: the product below may wrap */
#define STEP 257115u  /* odd, so that each room is come to once, and far from the one before */

const uint32_t drawn = DRAWN, scattered_rooms = ROOMS;
static uint8_t rooms[ROOMS][128]; /* 64 MiB, more than most processors' caches hold */
static uint8_t sequences[DRAWN][LONGEST], meanings[DRAWN][MEANING_BYTES];
static size_t lengths[DRAWN];

static const struct trial sides[SIDES] = {
    [LIBRARY] = {"library", coast_read_sequence, coast_write_sequence},
    [SECOND] = {"second implementation", second_read_bytes, second_write_bytes},
};

void draw_sequences(void) {
    begin_chance(689);
    for (size_t i = 0; i < DRAWN; i++) {
        lengths[i] = draw_sequence(sequences[i]);
        draw_meaning(meanings[i]);
    }
}

uint64_t read_all(enum side side) {
    uint64_t sum = 0;
    uint8_t meaning[MEANING_BYTES] = {0};
    for (size_t i = 0; i < DRAWN; i++) {
        sum += sides[side].read(sequences[i], lengths[i], meaning, sizeof meaning);
        sum = sum * 3u + meaning[i % MEANING_BYTES];
    }
    return sum;
}

uint64_t write_all(enum side side) {
    uint64_t sum = 0;
    uint8_t room[LONGEST] = {0};
    for (size_t i = 0; i < DRAWN; i++) {
        sum += sides[side].write(meanings[i], MEANING_BYTES, room, sizeof room);
        sum = sum * 3u + room[i % LONGEST];
    }
    return sum;
}

uint64_t write_scattered(enum side side) {
    uint64_t sum = 0;
    for (uint32_t i = 0; i < ROOMS; i++)
        sum = sum * 3u + sides[side].write(meanings[i % DRAWN], MEANING_BYTES, rooms[i * STEP % ROOMS], LONGEST);
    return sum;
}
