/* One call of the entries on trial and one of the second implementation's, on the same bytes, compared whole. */
#include "stations.h"

extern int printf(const char *, ...);
extern void *memcpy(void *to, const void *from, size_t length);
extern int memcmp(const void *a, const void *b, size_t length);

extern const struct entries second;
const struct entries *judged;

#define NOISE_LENGTH 16384u
static uint8_t noises[NOISE_LENGTH];

void begin_noise(void) {
    for (size_t i = 0; i < NOISE_LENGTH; i++)
        noises[i] = one_in(2) ? any_byte() : (uint8_t)chance(256);
}

const uint8_t *noise(size_t length) {
    return noises + chance((uint32_t)(NOISE_LENGTH - length) + 1u);
}

/* Lent bytes with a margin before and behind them, which shows a call that strays. */
#define MARGIN 16u
struct lent_whole {
    uint8_t station[MARGIN + MOST_STATION_SIZE + MARGIN];
    uint8_t room[MARGIN + MOST_ROOM_SIZE + MARGIN];
    uint8_t symbols[MARGIN + MOST_SYMBOLS + MARGIN];
};

/* One side of a call; its station begins at a place that the other side's does not. */
struct side {
    struct lent_whole now, before;
    size_t shift;
    uint64_t returned;
};

static uint8_t *station_of(struct side *side) {
    return side->now.station + MARGIN / 2u + side->shift;
}

static uint8_t *room_of(struct side *side) {
    return side->now.room + MARGIN;
}

/* The margins differ from side to side: a call that looks at them gives itself away. */
static void lend(struct side *side, const struct call *call, const uint8_t *room, size_t shift) {
    memcpy(&side->now, noise(sizeof side->now), sizeof side->now);
    side->shift = shift;
    memcpy(station_of(side), call->station, call->size);
    memcpy(room_of(side), room, call->room_size);
    memcpy(side->now.symbols + MARGIN, call->event->symbols, call->event->count);
    side->before = side->now;
}

/* Of no bytes, where a null pointer will do, that is what is handed in. */
static void make_call(struct side *side, const struct entries *to, const struct call *call, bool null) {
    const struct event *event = call->event;
    uint8_t *station = call->size == 0u && null ? NULL : station_of(side);
    uint8_t *room = call->room_size == 0u && null ? NULL : room_of(side);
    const uint8_t *symbols = event->count == 0u && null ? NULL : side->now.symbols + MARGIN;
    struct handed handed = {event->time, event->slot, symbols, event->count, event->ship, event->mode};
    struct lent_bytes lent = {station, call->size, room, call->room_size};
    side->returned = call_entry(to, event->letter, &handed, &lent);
}

/* Whether a side left all that it was not lent to write in. */
static bool kept_to_its_bytes(struct side *side, const struct call *call) {
    struct lent_whole *before = &side->before;
    memcpy(before->station + (station_of(side) - side->now.station), station_of(side), call->size);
    memcpy(before->room + MARGIN, room_of(side), call->room_size);
    return memcmp(before, &side->now, sizeof *before) == 0;
}

/* With a refusal no byte may change, else none behind the actions. */
static bool kept_to_its_answer(struct side *side, const struct call *call, const uint8_t *room) {
    bool accepted = (side->returned & 255u) <= 1u && !only_asks(call->event->letter);
    size_t written = ACTION_BYTES * (side->returned >> 8 & 255u);
    if (written > call->room_size || (!accepted && written > 0u))
        return false;
    return (accepted || memcmp(station_of(side), call->station, call->size) == 0) &&
           memcmp(room_of(side) + written, room + written, call->room_size - written) == 0;
}

/* With 29 the due time, or the clock, counts only where the bytes were none of a station. */
static bool same_returned(uint64_t a, uint64_t b, size_t size) {
    bool unsound = (b & 255u) == NOT_SOUND && size == station_ends();
    return unsound ? (a & 65535u) == (b & 65535u) : a == b;
}

static void tell_difference(struct side *trial, struct side *other, const struct call *call) {
    struct outcome given = {judged->name, trial->returned, station_of(trial), room_of(trial)};
    struct outcome wanted = {second.name, other->returned, station_of(other), room_of(other)};
    tell_call(call);
    tell_outcomes(call, &given, &wanted);
    if (!kept_to_its_bytes(trial, call))
        printf("  %s touched bytes that it was lent only to read, or not at all\n", judged->name);
}

bool calls_agree(const struct call *call, uint64_t *returned) {
    static struct side trial, other;
    const uint8_t *room = noise(MOST_ROOM_SIZE);
    bool null = one_in(2);
    size_t shift = chance(8);
    lend(&trial, call, room, shift);
    lend(&other, call, room, (shift + 1u + chance(7)) % 8u);
    make_call(&trial, judged, call, null);
    make_call(&other, &second, call, null);
    *returned = other.returned;
    note_call(call->event->letter, other.returned, room_of(&other));
    if (same_returned(trial.returned, other.returned, call->size) &&
        memcmp(station_of(&trial), station_of(&other), call->size) == 0 &&
        memcmp(room_of(&trial), room_of(&other), call->room_size) == 0 && kept_to_its_bytes(&trial, call) &&
        kept_to_its_bytes(&other, call) && kept_to_its_answer(&other, call, room))
        return true;
    tell_difference(&trial, &other, call);
    return false;
}
