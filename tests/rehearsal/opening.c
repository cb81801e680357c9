/* The S line, good or bad, and the lines before a station stands. */
#include "rehearsal.h"

#define ANY_CHANNEL 89u

/* Distinct channels in any order. */
static void put_channels(struct event *event, uint32_t count) {
    bool taken[ANY_CHANNEL] = {false};
    event->count = 0;
    while (event->count < count) {
        uint32_t channel = chance(ANY_CHANNEL);
        if (!second_is_channel(channel) || taken[channel])
            continue;
        taken[channel] = true;
        event->symbols[event->count++] = (uint8_t)channel;
    }
}

static struct event good_set_up(uint32_t most_channels) {
    struct event event = {.letter = SET_UP_LETTER, .slot = any_coast()};
    put_channels(&event, one_in(4) ? most_channels : 1u + chance(most_channels));
    return event;
}

/* One thing wrong in it, which may be the only one or not. */
static void spoil_set_up(struct event *event) {
    static const uint8_t no_channels[] = {0, 16, 29, 59, 70, 89, 127, 255};
    static const uint32_t no_coasts[] = {0, 1999999u, 8000000u, 200000000u, 799999999u, 999999999u, 4294967295u};
    uint8_t *one = event->symbols + chance((uint32_t)event->count);
    switch (chance(5)) {
    case 0: event->slot = no_coasts[chance(7)]; break;
    case 1: *one = no_channels[chance(8)]; break;
    case 2: event->count = 0; break;
    case 3: put_channels(event, MOST_SLOTS + 1u + chance(8)); break;
    default: event->symbols[event->count++] = event->symbols[0]; /* the first once more, at the end */
    }
}

void play_set_up(void) {
    struct event event = good_set_up(MOST_SLOTS);
    if (!stage.stands || one_in(2))
        spoil_set_up(&event);
    play(&event);
}

static void choose_ships(const struct mood *mood) {
    stage.ship_count = mood->least_ships + chance(mood->most_ships - mood->least_ships + 1u);
    for (uint32_t i = 0; i < stage.ship_count; i++)
        stage.ships[i] = 200000001u + chance(599999998u);
    stage.ships[0] = one_in(2) ? 200000000u : 799999999u;
}

/* An event that meets no station. */
static void play_too_early(void) {
    static const char letters[] = {EVENTS(ITS_LETTER)};
    struct event event = {.letter = letters[chance(sizeof letters)]};
    event.time = chance(1000);
    event.slot = chance(2);
    if (takes_symbols(event.letter))
        event.count = draw_sequence(event.symbols);
    if (takes_ship(event.letter))
        put_caller(&event, stage.ships[0]);
    if (one_in(4))
        play_odd();
    else if (one_in(3))
        play_unreadable(&event);
    else
        play(&event);
}

void open_station(const struct mood *mood) {
    struct event event;
    choose_ships(mood);
    while (one_in(2)) {
        if (one_in(2))
            play_set_up();
        else
            play_too_early();
    }
    event = good_set_up(mood->most_channels);
    play(&event);
}
