/* Events from scripts, recorded beforehand, through the calls that take a lent station. */
#include "bench.h"
#include "../include/coast.h"
#include "../tests/host/event.h"

#define MOST_EVENTS 16384u

const char entry_letters[] = {EVERY_ENTRY(ITS_LETTER) '\0'};
static struct event events[MOST_EVENTS];
static uint8_t lists[MOST_EVENTS][LIST_MOST];
static uint32_t count;

extern const struct entries second; /* of tests/stations/second.c */

const struct entries *entries_of(enum side side) {
    return side == LIBRARY ? &library : &second;
}

static struct coast_lent whole;
const struct lent_bytes lent = {whole.station, sizeof whole.station, whole.room, sizeof whole.room};

bool record_events(void) {
    struct line line;
    while (count < MOST_EVENTS && read_line(&line))
        if (read_event(&line, &events[count], lists[count]))
            count++;
    return count > 0u;
}

uint32_t event_count(void) {
    return count;
}

char letter_of(uint32_t event) {
    return events[event].letter;
}

uint64_t hand_in_one(enum side side, uint32_t event) {
    return hand_in(entries_of(side), &events[event], &lent);
}

uint64_t hand_in_all(enum side side) {
    uint64_t sum = 0;
    for (uint32_t i = 0; i < count; i++) {
        sum += hand_in_one(side, i);
        sum = sum * 3u + lent.room[i % lent.room_size] + lent.station[i % lent.size];
    }
    return sum;
}
