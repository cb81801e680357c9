/* A call from shore to ship, until it is answered (02, no. 2). The station's
 * clock already stands at the time of the event (or due time). */
#include "inside.h"

#define MOST_DIGIT 9u

/* ---- refusals ---- */

static bool mode_fits(uint32_t mode) {
    return mode == SIMPLEX || mode == DUPLEX;
}

static bool digits_fit(const struct caller *caller) {
    if (caller->count < 1u || caller->count > MOST_DIGITS)
        return false;
    for (size_t i = 0; i < caller->count; i++)
        if (caller->digits[i] > MOST_DIGIT)
            return false;
    return true;
}

/* "that ship already has a slot (a hold included) or waits" */
static bool is_engaged(const struct station *station, uint32_t ship) {
    for (uint32_t i = 0; i < station->channel_count; i++)
        if (stores_request(station->slots[i].phase) && station->slots[i].request.self == ship)
            return true;
    return place_in_queue(station, ship) < station->waiting_count;
}

/* "15 for a bad ship identity, 17 for another mode, 19 for a bad number, 38
 * .., 37 when no slot is free; in this order"; no. 4: 37 too when the call
 * numbers are used up */
int judge_caller(const struct station *station, const struct caller *caller) {
    if (!second_is_ship(caller->ship))
        return SHIP_BAD;
    if (!mode_fits(caller->mode))
        return MODE_BAD;
    if (!digits_fit(caller))
        return NUMBER_BAD;
    if (is_engaged(station, caller->ship))
        return SHIP_ENGAGED;
    return lowest_free(station) == NO_SLOT || !numbers_left(station) ? NO_SLOT_FREE : DONE;
}

/* ---- the call ---- */

/* As if the ship had asked for the caller's number: "(mode, 126)". */
static struct meaning request_for(const struct station *station, const struct caller *caller) {
    struct meaning request = {.self = caller->ship, .second = NO_INFORMATION, .kind = FIELD_NONE, .end = RQ};
    request.first = (uint8_t)caller->mode;
    request.count = (uint8_t)caller->count;
    for (size_t i = 0; i < caller->count; i++)
        request.digits[i] = (uint8_t)caller->digits[i];
    return to_ours(station, request);
}

/* "takes the lowest free slot: carrier on, a 123 call .. with the channel
 * and RQ" */
void call_ship(struct work *work, const struct caller *caller) {
    struct meaning request = request_for(work->station, caller);
    uint32_t slot = lowest_free(work->station);
    store(work, slot, PHASE_CALLED, &request);
    act_carrier_on(work, slot);
    send_able(work, slot, RQ);
}

/* "one repeat after 5 s, dropped after another 5 s" */
void call_ship_again(struct work *work, uint32_t slot) {
    go_on(work, slot, PHASE_CALLED_AGAIN);
    send_able(work, slot, RQ);
}

/* "starts the ringing and a wait of one minute" */
void start_ringing(struct work *work, uint32_t slot) {
    go_on(work, slot, PHASE_RINGING);
    act_ringing_on(work, slot);
}

/* "it ends that wait, stops the ringing and starts the charge; the call is
 * then answered, its carrier present" */
void ship_transmits(struct work *work, uint32_t slot) {
    begin_talk(work, slot);
    work->station->slots[slot].carrier = CARRIER_PRESENT;
    act_ringing_off(work, slot);
}

/* "A drop gives ringing off if it rings, carrier off, the tone unless the
 * caller hung up, release line; the slot is freed." */
void drop_call(struct work *work, uint32_t slot, enum dropped_by by) {
    if (is_ringing(work->station->slots[slot].phase))
        act_ringing_off(work, slot);
    act_carrier_off(work, slot);
    if (by != DROPPED_BY_CALLER)
        act_busy_tone(work, slot);
    act_release(work, slot);
    free_slot(work, slot);
}
