/* Calls from shore to ship: who is called, what is wrong with it, and what the ship does then. */
#include "rehearsal.h"

static bool stands(uint32_t ship) {
    const struct station *station = &stage.station;
    for (uint32_t i = 0; i < station->channel_count; i++)
        if (stores_request(station->slots[i].phase) && station->slots[i].request.self == ship)
            return true;
    return place_in_queue(station, ship) < station->waiting_count;
}

/* One that has no slot and does not wait, if there is one. */
static uint32_t idle_ship(void) {
    uint32_t at = chance(stage.ship_count);
    for (uint32_t left = stage.ship_count; left > 1u && stands(stage.ships[at]); left--)
        at = (at + 1u) % stage.ship_count;
    return stage.ships[at];
}

static void put_digits(struct event *event, uint32_t count) {
    for (event->count = 0; event->count < count; event->count++)
        event->symbols[event->count] = (uint8_t)chance(10);
}

void put_caller(struct event *event, uint32_t ship) {
    event->ship = ship;
    event->mode = one_in(3) ? DUPLEX : SIMPLEX;
    put_digits(event, one_in(8) ? MOST_DIGITS : 1u + chance(MOST_DIGITS));
}

/* None, one too many or more, or an invalid one. */
static void spoil_digits(struct event *event) {
    static const uint8_t none[] = {10, 16, 99, 128, 255};
    switch (chance(4)) {
    case 0: event->count = 0; break;
    case 1: put_digits(event, MOST_DIGITS + 1u); break;
    case 2: put_digits(event, MOST_DIGITS + 1u + chance(MOST_SYMBOLS - MOST_DIGITS)); break;
    default: event->symbols[chance((uint32_t)event->count)] = none[chance(sizeof none)];
    }
}

/* The ship, the mode and the number, one of them or several; low bytes alone that would do among them. */
void spoil_caller(struct event *event) {
    static const uint32_t no_ships[] = {0, 199999999u, 800000000u, 999999999u, 2001234u, 4294967295u};
    static const uint32_t no_modes[] = {
        0, 99, 102, 104, 105, 106, 126, 256u + SIMPLEX, 256u + DUPLEX, 65536u + SIMPLEX, (1u << 24) + DUPLEX, 4294967295u};
    if (one_in(3))
        event->ship = one_in(4) ? any_identity() : no_ships[chance(6)];
    if (one_in(3))
        event->mode = no_modes[chance(sizeof no_modes / sizeof no_modes[0])];
    if (event->count > 0u && one_in(2))
        spoil_digits(event);
}

/* One that has a slot or waits, or any where none does. */
static uint32_t standing_ship(void) {
    const struct station *station = &stage.station;
    uint32_t place = chance(station->channel_count + station->waiting_count), slots = station->channel_count;
    if (place >= slots)
        return station->queue[place - slots].request.self;
    return stores_request(station->slots[place].phase) ? station->slots[place].request.self : stage.ships[0];
}

uint32_t call_from_ashore(struct event *event) {
    event->letter = 'C';
    put_caller(event, one_in(3) ? standing_ship() : idle_ship());
    return CALLED_WAIT;
}

/* ---- the ship ---- */

/* On channel 70, but seldom where it does not count. */
static void send(struct event *event, const struct meaning *m, uint32_t slot) {
    event->letter = one_in(24) ? 'W' : 'Q';
    event->slot = slot;
    put_sequence(event, m);
}

/* It can, or it cannot; now and then another ship says so, or something else is said. */
static void acknowledge_call(struct event *event, uint32_t slot) {
    const struct slot *held = &stage.station.slots[slot];
    uint32_t named = one_in(10) ? chance(stage.station.channel_count) : slot;
    struct meaning m = as_ring_back_answer(held->request, stage.station.channels[named]);
    if (one_in(talks(held->phase) ? 2u : 4u))
        m = as_unable(held->request);
    if (m.first == UNABLE && one_in(8))
        m.end = one_in(2) ? RQ : OTHER_END;
    else if (one_in(10))
        m.self = stage.ships[chance(stage.ship_count)];
    else if (one_in(10))
        m = mistaken(m);
    send(event, &m, slot);
}

/* It does not know of the call, and asks for one. */
static void ask_meanwhile(struct event *event, uint32_t slot) {
    const struct meaning *stored = &stage.station.slots[slot].request;
    struct meaning m = one_in(2) ? *stored : new_request(stored->self);
    if (one_in(4))
        m.first = DATA;
    send(event, &m, slot);
}

/* It sends on the working channel what counts in other calls. */
static void send_early(struct event *event, uint32_t slot) {
    const struct meaning *stored = &stage.station.slots[slot].request;
    struct meaning m = one_in(2) ? as_working_call(*stored) : as_end(*stored);
    event->letter = 'W';
    event->slot = slot;
    put_sequence(event, &m);
}

/* It comes on the working channel, later leaves it, and then asks for another call. */
static void transmit(struct event *event, uint32_t slot) {
    const struct slot *held = &stage.station.slots[slot];
    event->letter = talks(held->phase) ? 'D' : 'U';
    event->slot = slot;
    if (talks(held->phase) && held->carrier == CARRIER_ABSENT)
        ask_meanwhile(event, slot);
}

uint32_t answer_caller(struct event *event, uint32_t slot) {
    uint32_t drawn = chance(8);
    if (drawn == 0u)
        ask_meanwhile(event, slot);
    else if (drawn == 1u)
        send_early(event, slot);
    else if (drawn < 4u || is_called(stage.station.slots[slot].phase))
        acknowledge_call(event, slot);
    else
        transmit(event, slot);
    return RINGING_WAIT;
}
