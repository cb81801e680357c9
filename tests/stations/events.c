/* Events for the station on the stage, drawn by the generator of rehearsals: its line is kept and not written. */
#include "stations.h"

struct stage stage;
static struct event kept;

void play(const struct event *event) {
    kept = *event;
}

/* Its mood asks for no such lines. */
void play_unreadable(const struct event *like) {
    (void)like;
}

void play_odd(void) {
}

struct event draw_event(void) {
    static const struct mood mood = {
        .weights =
            {
                [CALL] = 5,
                [AGAIN] = 4,
                [ANSWER] = 4,
                [EXCHANGE] = 4,
                [LINE] = 4,
                [CARRIER] = 4,
                [END] = 4,
                [TIME] = 6,
                [HAND] = 4,
                [STRAY] = 1,
                [LEAP] = 1,
                [ASHORE] = 5,
            },
        .spoilt = 4,
    };
    make_move(&mood);
    if (one_in(24)) /* a slot's number whose low byte alone is one */
        kept.slot += 256u << (8u * chance(3));
    return kept;
}

static uint8_t any_channel(void) {
    uint32_t channel = 0;
    while (!second_is_channel(channel))
        channel = 1u + chance(88);
    return (uint8_t)channel;
}

/* Distinct or not, as it comes. */
static void put_channels(struct event *event, uint32_t count) {
    for (event->count = 0; event->count < count; event->count++)
        event->symbols[event->count] = any_channel();
}

/* One more after the other, all of them channels. */
static void put_distinct(struct event *event, uint32_t count) {
    uint32_t channel = any_channel();
    for (event->count = 0; event->count < count; channel = channel % 88u + 1u)
        if (second_is_channel(channel))
            event->symbols[event->count++] = (uint8_t)channel;
}

struct event draw_set_up(void) {
    static const uint8_t edges[] = {0, 1, 15, 16, 17, 28, 29, 59, 60, 69, 70, 71, 88, 89, 127, 255};
    struct event event = {.letter = SET_UP_LETTER, .slot = any_coast()};
    put_distinct(&event, one_in(4) ? MOST_SLOTS : 1u + chance(MOST_SLOTS));
    uint8_t *one = event.symbols + chance((uint32_t)event.count);
    switch (chance(8)) {
    case 0: event.slot = any_identity(); break;
    case 1: event.count = 0; break;
    case 2: put_distinct(&event, MOST_SLOTS + 1u + (one_in(2) ? 0u : chance(MOST_SYMBOLS - MOST_SLOTS))); break;
    case 3: put_channels(&event, 1u + chance(MOST_SLOTS)); break;
    case 4: *one = edges[chance(sizeof edges)]; break;
    default: break;
    }
    return event;
}

size_t any_room_size(void) {
    switch (chance(16)) {
    case 0: return chance(ACTION_ROOM);
    case 1: return ACTION_ROOM - 1u;
    case 2: return 0;
    case 3:
    case 4: return ACTION_ROOM + chance(MOST_ROOM_SIZE - ACTION_ROOM + 1u);
    default: return ACTION_ROOM;
    }
}
