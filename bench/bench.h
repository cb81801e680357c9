/* What the parts of the benchmark share. */
#ifndef BENCH_H
#define BENCH_H

#include <stdbool.h>
#include <stddef.h>
#include <stdint.h>

#include "../tests/c/entries.h"

enum side { LIBRARY, SECOND, SIDES };

/* Does all the work once, and adds up what was returned, so that no call is in vain and both sides can be seen to do the
 * same. */
typedef uint64_t work(enum side side);

/* ---- timing.c ---- */
/* Times both sides and prints nanoseconds for each of so many pieces of the work, the median ratio of seven runs and the
 * lowest and highest; false where the two differ. */
bool time_both(const char *what, work *all, uint32_t pieces);

/* ---- sequences.c: valid sequences and meanings by chance ---- */
void draw_sequences(void);
extern const uint32_t drawn;
uint64_t read_all(enum side side);
uint64_t write_all(enum side side);
extern const uint32_t scattered_rooms; /* in more memory than most processors' caches hold */
uint64_t write_scattered(enum side side);

/* ---- transmissions.c: transmissions of valid sequences: whole, with bit noise, with strays before and behind ---- */
void draw_transmissions(void);
extern const uint32_t drawn_transmissions;
uint64_t write_transmissions(enum side side);
uint64_t read_whole(enum side side);
uint64_t read_noisy(enum side side);
uint64_t read_among_strays(enum side side);

/* ---- searches.c: what two receivers heard: noise, by 120 bytes, 64 KiB and a MiB of each, and a call in the second's ---- */
void draw_receivers(void);
extern const uint32_t drawn_noise; /* in KiB, so that the one can be held against the other */
extern const uint32_t drawn_calls;
uint64_t find_in_seconds(enum side side);
uint64_t find_in_long_pieces(enum side side);
uint64_t find_in_longer_pieces(enum side side);
uint64_t find_calls(enum side side);

/* ---- flipped.c: each unit of each character is flipped or not, by itself ---- */
void flip_units(uint8_t *bytes, size_t size, uint32_t of_a_thousand);

/* ---- events.c: the script lines of standard input ---- */
extern const struct lent_bytes lent; /* a station, and a room for its actions */
const struct entries *entries_of(enum side side);
extern const char entry_letters[];
bool record_events(void); /* false where there are none */
uint32_t event_count(void);
uint64_t hand_in_all(enum side side);
uint64_t hand_in_one(enum side side, uint32_t event);
char letter_of(uint32_t event);

/* ---- growth.c: a tick with nothing due, by slots taken and ships waiting ---- */
bool time_growth(void);

/* ---- copies.c: takes the place of the C library's memcpy and memmove ---- */
struct copies {
    uint64_t calls, bytes;
};
extern struct copies copies;

#endif
