/* Sound stations, straight from the words of document 01 ("It is sound if"): any phases beside each other, each time anywhere
 * within its bounds, free slots beside waiting ships. */
#include "stations.h"

#define HUNDRED_HOURS 3600000u
#define ANY_CHANNEL 89u

static bool due_now;      /* whether a wait of this station may be due at its clock */
static uint32_t together; /* tenths until the time at which many of its waits are due */

static uint32_t any_clock(void) {
    switch (chance(6)) {
    case 0: return chance(3);
    case 1: return chance(20000);
    case 2: return TIME_LIMIT - chance(3);
    case 3: return TIME_LIMIT - chance(10000);
    case 4: return HUNDRED_HOURS + chance(HUNDRED_HOURS);
    default: return chance(TIME_LIMIT + 1u);
    }
}

/* Any, and many at the edge of a byte. */
static uint32_t any_number(void) {
    static const uint32_t edges[] = {
        0, 1, 254, 255, 256, 65535, 65536, 16777215, 16777216, LAST_CALL_NUMBER - 1u, LAST_CALL_NUMBER};
    return one_in(2) ? edges[chance(sizeof edges / sizeof edges[0])] : chance(LAST_CALL_NUMBER);
}

/* The last call number given: often the last of all, often one of those right before it. */
static uint32_t any_last_number(void) {
    switch (chance(8)) {
    case 0:
    case 1: return LAST_CALL_NUMBER;
    case 2:
    case 3: return LAST_CALL_NUMBER - 1u;
    case 4: return LAST_CALL_NUMBER - 2u;
    default: return any_number();
    }
}

/* From the clock to the clock plus the wait and 1. */
static uint32_t any_due(uint32_t wait) {
    uint32_t clock = stage.station.clock;
    if (due_now && one_in(4))
        return clock;
    if (one_in(3))
        return clock + together;
    return clock + (one_in(6) ? wait + 1u : 1u + chance(wait + 1u));
}

/* Not after the clock; many a whole count of seconds, hours or a hundred hours ago. */
static uint32_t any_start(void) {
    uint32_t clock = stage.station.clock, ago = 0;
    switch (chance(6)) {
    case 0: break;
    case 1: ago = chance(100); break;
    case 2: ago = HUNDRED_HOURS - 10u + chance(20); break;
    case 3: ago = 36000u * chance(100) + chance(10); break;
    case 4: ago = chance(HUNDRED_HOURS); break;
    default: ago = chance(clock + 1u);
    }
    return ago > clock ? 0u : clock - ago;
}

static struct meaning any_stored(uint32_t ship) {
    struct meaning request = new_request(ship);
    if (request.first == DATA)
        request.first = DUPLEX;
    return request;
}

static struct duration any_duration(void) {
    struct duration duration = {FIELD_NONE, 0, 0, 0};
    if (one_in(3))
        return duration;
    duration.kind = FIELD_DURATION;
    duration.hours = (uint8_t)chance(100);
    duration.minutes = (uint8_t)chance(60);
    duration.seconds = (uint8_t)chance(60);
    return duration;
}

/* Slots and waiting ships have ships of their own, so none stands twice; the ship of a hold may be any. */
void draw_slot(uint32_t slot, enum phase phase) {
    struct slot next = {0};
    next.phase = phase;
    if (stores_request(phase)) {
        next.number = any_number();
        next.request = any_stored(stage.ships[is_held(phase) ? chance(MOST_SHIPS) : slot]);
    }
    if (talks(phase))
        next.start = any_start();
    else if (has_slot_wait(phase))
        next.due = any_due(slot_wait(phase));
    if (has_call(phase) && one_in(2)) {
        next.carrier = CARRIER_ABSENT;
        next.carrier_due = any_due(next.request.first == DUPLEX ? DUPLEX_CARRIER_WAIT : SIMPLEX_CARRIER_WAIT);
    }
    if (is_held(phase))
        next.duration = any_duration();
    stage.station.slots[slot] = next;
}

void draw_waiting(uint32_t place) {
    stage.station.queue[place].request = any_stored(stage.ships[MOST_SLOTS + place]);
    stage.station.queue[place].due = any_due(QUEUE_WAIT);
}

/* As many as can stand, and as many newcomers; no two alike. */
static void choose_ships(void) {
    uint32_t step = 1u + chance(9000000u), first = 200000000u + (one_in(2) ? 0u : chance(100000u));
    stage.ship_count = MOST_SHIPS;
    for (uint32_t i = 0; i < MOST_SHIPS; i++)
        stage.ships[i] = first + i * step;
    if (one_in(2))
        stage.ships[chance(MOST_SHIPS)] = 799999999u;
    for (uint32_t i = 0; i < MOST_SHIPS; i++) {
        uint32_t other = chance(MOST_SHIPS), kept = stage.ships[i];
        stage.ships[i] = stage.ships[other];
        stage.ships[other] = kept;
    }
}

static void choose_channels(uint32_t count) {
    bool taken[ANY_CHANNEL] = {false};
    stage.station.channel_count = 0;
    while (stage.station.channel_count < count) {
        uint32_t channel = chance(ANY_CHANNEL);
        if (!second_is_channel(channel) || taken[channel])
            continue;
        taken[channel] = true;
        stage.station.channels[stage.station.channel_count++] = (uint8_t)channel;
    }
}

static bool is_busy(enum phase phase) {
    return !is_free(phase);
}

static bool is_idle(enum phase phase) {
    return !stores_request(phase);
}

static enum phase any_phase(void) {
    return (enum phase)chance(PHASES);
}

enum phase draw_phase(bool (*wanted)(enum phase)) {
    enum phase phase = any_phase();
    while (!wanted(phase))
        phase = any_phase();
    return phase;
}

/* More of them with a call, in which the most can happen, and as many answered as not. */
static enum phase usual_phase(bool with_free) {
    return one_in(4) ? draw_phase(one_in(2) ? talks : expects_reply) : with_free ? any_phase() : draw_phase(is_busy);
}

void draw_idle(void) {
    for (uint32_t i = 0; i < stage.station.channel_count; i++)
        draw_slot(i, draw_phase(is_idle));
    stage.station.waiting_count = 0;
}

/* Its channels are drawn with its slots. */
void begin_station(void) {
    static const uint32_t channel = 26;
    stage.station = second_set_up(any_coast(), &channel, 1).station;
    stage.station.clock = any_clock();
    stage.station.last_number = any_last_number();
}

void fill_station(uint32_t slots, uint32_t waiting) {
    bool with_free = one_in(2);
    stage.lines_left = 0;
    due_now = one_in(8);
    together = 1u + chance(HOLD_WAIT + 1u);
    choose_ships();
    choose_channels(slots);
    for (uint32_t i = 0; i < slots; i++)
        draw_slot(i, usual_phase(with_free));
    stage.station.waiting_count = waiting;
    for (uint32_t i = 0; i < waiting; i++)
        draw_waiting(i);
}

void fill_as_usual(void) {
    uint32_t slots = one_in(12) ? MOST_SLOTS : 1u + chance(one_in(6) ? MOST_SLOTS : 4u);
    uint32_t waiting = one_in(12) ? MOST_WAITING : chance(one_in(6) ? MOST_WAITING : 4u);
    fill_station(slots, waiting);
}

void draw_any_station(void) {
    begin_station();
    fill_as_usual();
}
