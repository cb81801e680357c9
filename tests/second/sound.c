/* Soundness (refusal 29): "It is sound if ..", clause by clause. */
#include "inside.h"

static bool channels_fit(const struct station *station) {
    if (station->channel_count < 1u || station->channel_count > MOST_SLOTS)
        return false;
    for (uint32_t i = 0; i < station->channel_count; i++) {
        if (!second_is_channel(station->channels[i]))
            return false;
        for (uint32_t j = 0; j < i; j++)
            if (station->channels[i] == station->channels[j])
                return false;
    }
    return true;
}

/* "stored requests (simplex or duplex, to this station)" */
static bool request_fits(const struct station *station, const struct meaning *m) {
    return is_ours(station, m) && (m->first == SIMPLEX || m->first == DUPLEX) && m->kind == FIELD_NONE && m->end == RQ &&
           second_judge(m) == 0;
}

/* "each due time lies from the clock to the clock plus its wait and 1" */
static bool due_fits(const struct station *station, uint32_t due, uint32_t wait) {
    return due >= station->clock && due <= due_after(station->clock, wait);
}

/* The carrier's record and wait, in a call. */
static bool carrier_fits(const struct station *station, const struct slot *slot) {
    if (slot->carrier == CARRIER_ABSENT)
        return due_fits(station, slot->carrier_due, carrier_wait(slot));
    return slot->carrier == CARRIER_PRESENT;
}

/* "hold durations keep these rules" */
static bool duration_fits(const struct duration *duration) {
    if (duration->kind == FIELD_NONE)
        return duration->hours == 0u && duration->minutes == 0u && duration->seconds == 0u;
    return duration->kind == FIELD_DURATION && second_is_duration(duration->hours, duration->minutes, duration->seconds);
}

static bool slot_fits(const struct station *station, const struct slot *slot) {
    enum phase phase = slot->phase;
    if (is_free(phase) || is_taken(phase))
        return true;
    if (!stores_request(phase))
        return false;
    if (!request_fits(station, &slot->request))
        return false;
    if (has_slot_wait(phase) && !due_fits(station, slot->due, slot_wait(phase)))
        return false;
    if (has_call(phase) && !carrier_fits(station, slot))
        return false;
    if (is_held(phase) && !duration_fits(&slot->duration))
        return false;
    return !talks(phase) || slot->start <= station->clock;
}

static bool slots_fit(const struct station *station) {
    for (uint32_t i = 0; i < station->channel_count; i++)
        if (!slot_fits(station, &station->slots[i]))
            return false;
    return true;
}

static bool queue_fits(const struct station *station) {
    if (station->waiting_count > MOST_WAITING)
        return false;
    for (uint32_t i = 0; i < station->waiting_count; i++) {
        const struct waiting_ship *ship = &station->queue[i];
        if (!request_fits(station, &ship->request) || !due_fits(station, ship->due, QUEUE_WAIT))
            return false;
    }
    return true;
}

/* "no ship stands twice in the queue and the offered, ring-back,
 * acknowledged, dialling and answered slots together" */
static bool no_ship_twice(const struct station *station) {
    uint32_t ships[MOST_WAITING + MOST_SLOTS];
    uint32_t count = 0;
    for (uint32_t i = 0; i < station->waiting_count; i++)
        ships[count++] = station->queue[i].request.self;
    for (uint32_t i = 0; i < station->channel_count; i++)
        if (holds_ship(station->slots[i].phase))
            ships[count++] = station->slots[i].request.self;
    for (uint32_t i = 0; i < count; i++)
        for (uint32_t j = 0; j < i; j++)
            if (ships[i] == ships[j])
                return false;
    return true;
}

bool second_is_sound(const struct station *station) {
    return second_is_coast(station->identity) && channels_fit(station) && station->clock <= TIME_LIMIT && queue_fits(station) &&
           slots_fit(station) && no_ship_twice(station);
}
