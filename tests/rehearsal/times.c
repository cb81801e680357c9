/* When things happen: at once, soon, in the last tenth, together with another wait, a tenth late, far off. */
#include "rehearsal.h"

#define MOST_WAITS (MOST_WAITING + 2u * MOST_SLOTS)
#define HUNDRED_HOURS 3600000u

bool next_due(uint32_t *due) {
    return second_next_due(&stage.station, due);
}

/* Every due time that runs. */
static uint32_t all_due(uint32_t *due) {
    const struct station *station = &stage.station;
    uint32_t count = 0;
    for (uint32_t i = 0; i < station->waiting_count; i++)
        due[count++] = station->queue[i].due;
    for (uint32_t i = 0; i < station->channel_count; i++) {
        const struct slot *slot = &station->slots[i];
        if (has_call(slot->phase) && slot->carrier == CARRIER_ABSENT)
            due[count++] = slot->carrier_due;
        if (has_slot_wait(slot->phase))
            due[count++] = slot->due;
    }
    return count;
}

/* Begun then, the wait falls due together with one that runs, that slot's own before others; the clock where that cannot
 * be. */
static uint32_t together(uint32_t wait, uint32_t slot) {
    uint32_t due[MOST_WAITS], clock = stage.station.clock, first = 0;
    uint32_t count = all_due(due), from = count == 0u ? 0u : chance(count);
    if (count > 0u && slot < stage.station.channel_count && expects_reply(stage.station.slots[slot].phase))
        due[from] = stage.station.slots[slot].due;
    for (uint32_t i = 0; i < count && next_due(&first); i++) {
        uint32_t other = due[(from + i) % count];
        if (other >= clock + wait + 1u && other - wait - 1u < first)
            return other - wait - 1u;
    }
    return clock;
}

/* At an edge of the duration of a call that talks: a second, a minute, an hour, a hundred hours. */
static uint32_t at_an_edge(void) {
    static const uint32_t lengths[] = {10, 600, 36000, HUNDRED_HOURS};
    const struct slot *slot = &stage.station.slots[chance(stage.station.channel_count)];
    uint32_t length = lengths[chance(4)], clock = stage.station.clock;
    uint64_t edge;
    if (!talks(slot->phase))
        return clock + chance(20);
    edge = slot->start + (uint64_t)length * ((clock - slot->start) / length + 1u) - chance(2);
    return edge < clock || edge > TIME_LIMIT ? clock : (uint32_t)edge;
}

uint32_t soon(uint32_t wait, uint32_t slot) {
    uint32_t clock = stage.station.clock, due = 0, time = clock;
    bool runs = next_due(&due);
    switch (chance(16)) {
    case 0:
    case 1:
    case 2: break;
    case 3: time = runs ? due - 1u : clock; break;
    case 4: time = clock + chance(600); break;
    case 5:
    case 6:
    case 9:
    case 10: time = together(wait, slot); break;
    case 7: time = at_an_edge(); break;
    case 8: time = clock + chance(200); break;
    default: time = clock + chance(40);
    }
    if (runs && time >= due && !one_in(4))
        time = due - 1u;
    time = time < clock ? clock : time;
    return time > TIME_LIMIT ? TIME_LIMIT : time;
}

uint32_t leap(void) {
    uint32_t clock = stage.station.clock, left = TIME_LIMIT - clock;
    uint32_t most = one_in(40) ? left : one_in(2) ? HUNDRED_HOURS + 100u : 20000u;
    const struct slot *slot = &stage.station.slots[chance(stage.station.channel_count)];
    uint32_t length = one_in(3) ? HUNDRED_HOURS - chance(HUNDRED_HOURS / 10u) : HUNDRED_HOURS - 10u + chance(20);
    if (talks(slot->phase) && one_in(2) && slot->start + length > clock && length <= TIME_LIMIT - slot->start)
        return slot->start + length;
    return clock + chance((most < left ? most : left) + 1u);
}

void catch_up(uint32_t time) {
    uint32_t due = 0;
    bool exact = one_in(2);
    while (next_due(&due) && due <= time && stage.lines_left > 0u)
        pass_time(exact ? due : time);
}

uint32_t wrong_time(void) {
    uint32_t clock = stage.station.clock, due = clock;
    next_due(&due);
    switch (chance(4)) {
    case 0: return due; /* a tenth late */
    case 1: return clock > 0u ? clock - 1u - (one_in(2) ? 0u : chance(clock)) : 0u;
    case 2: return TIME_LIMIT + 1u + (one_in(2) ? 0u : chance(294967295u));
    default: return due + chance(1000);
    }
}
