/* "What each event does": sequences heard. The clock already stands at the
 * event's time, and the sequence is one that the reader accepts. */
#include "inside.h"

#define NO_SLOT_BYTE 255u
#define BUSY 102u
#define QUEUED 103u
#define EQUIPMENT_DISABLED 107u /* the call numbers are used up */
#define MODE_NOT_USABLE 109u

static bool same_number(const struct meaning *a, const struct meaning *b) {
    bool same = a->count == b->count;
    for (size_t i = 0; i < MOST_DIGITS; i++)
        same = same && a->digits[i] == b->digits[i];
    return same;
}

/* "an identical request": both are call requests to this station. */
static bool same_request(const struct meaning *a, const struct meaning *b) {
    return a->self == b->self && a->first == b->first && a->second == b->second && same_number(a, b);
}

/* "answer 104/.." with "identities exchanged, BQ, .. the field 126s" */
static void answer_unable(struct work *work, const struct meaning *request, uint8_t reason) {
    struct meaning m = exchanged(request);
    m.first = UNABLE;
    m.second = reason;
    m.end = BQ;
    act_send_calling(work, NO_SLOT_BYTE, &m);
}

static uint32_t ships_slot(const struct station *station, uint32_t ship) {
    for (uint32_t i = 0; i < station->channel_count; i++)
        if (holds_ship(station->slots[i].phase) && station->slots[i].request.self == ship)
            return i;
    return NO_SLOT;
}

uint32_t lowest_free(const struct station *station) {
    for (uint32_t i = 0; i < station->channel_count; i++)
        if (is_free(station->slots[i].phase))
            return i;
    return NO_SLOT;
}

/* Rules d to g; 02 no. 4: with the numbers used up they "answer 104/107 and change nothing else". */
static void place_ship(struct work *work, const struct meaning *request) {
    struct station *station = work->station;
    uint32_t place = place_in_queue(station, request->self);
    uint32_t slot = lowest_free(station);
    if (!numbers_left(station)) {
        answer_unable(work, request, EQUIPMENT_DISABLED);
    } else if (place < station->waiting_count) {
        station->queue[place].request = *request;
        answer_unable(work, request, QUEUED);
    } else if (slot != NO_SLOT) {
        act_carrier_on(work, slot);
        offer(work, slot, request);
    } else if (station->waiting_count < MOST_WAITING) {
        queue_join(station, request);
        answer_unable(work, request, QUEUED);
    } else {
        answer_unable(work, request, BUSY);
    }
}

/* Rule b: offered, ring-back or acknowledged. A repeated acknowledgement needs no number, an offer afresh does. */
static void ask_again(struct work *work, uint32_t slot, const struct meaning *request) {
    const struct slot *held = &work->station->slots[slot];
    if (is_offered(held->phase) && same_request(&held->request, request))
        send_able(work, slot, BQ);
    else if (!numbers_left(work->station))
        answer_unable(work, request, EQUIPMENT_DISABLED);
    else
        offer(work, slot, request);
}

/* Call request, "first rule that fits". */
static int call_request(struct work *work, const struct meaning *request) {
    uint32_t slot = ships_slot(work->station, request->self);
    /* 02: "A request from a ship being called, until that transmission, is ignored, before rule a" */
    if (slot != NO_SLOT && is_being_called(work->station->slots[slot].phase))
        return IGNORED;
    if (request->first == DATA) {
        answer_unable(work, request, MODE_NOT_USABLE);
        return DONE;
    }
    if (slot != NO_SLOT) {
        const struct slot *held = &work->station->slots[slot];
        if (!has_call(held->phase)) {
            ask_again(work, slot, request);
            return DONE;
        }
        /* c. "ignored if duplex or if its carrier is present" */
        if (held->request.first == DUPLEX || held->carrier == CARRIER_PRESENT)
            return IGNORED;
        coasts_end(work, slot);
    }
    place_ship(work, request);
    return DONE;
}

/* "BQ on channel 70 from that ship, telecommand 100 or 101, naming that
 * channel: acknowledged, wait 160"; 02: "The ship's first BQ with 100 or 101
 * and that channel starts the ringing". */
static int able_answer(struct work *work, const struct meaning *m) {
    struct station *station = work->station;
    uint32_t slot = ships_slot(station, m->self);
    if (slot == NO_SLOT || m->channel != station->channels[slot])
        return IGNORED;
    if (is_rung(station->slots[slot].phase))
        acknowledge(work, slot);
    else if (is_called(station->slots[slot].phase))
        start_ringing(work, slot);
    else
        return IGNORED;
    return DONE;
}

/* 02: "its BQ with 104 before its transmission, ringing or not, drops the call" */
static int unable_answer(struct work *work, const struct meaning *m) {
    uint32_t slot = ships_slot(work->station, m->self);
    if (slot == NO_SLOT || !is_being_called(work->station->slots[slot].phase))
        return IGNORED;
    drop_call(work, slot, DROPPED_BY_SHIP);
    return DONE;
}

static bool is_voice(const struct meaning *m) {
    return m->first == SIMPLEX || m->first == DUPLEX;
}

int heard_on_calling(struct work *work, const struct meaning *m) {
    bool asks = is_voice(m) || m->first == DATA;
    if (!is_ours(work->station, m))
        return IGNORED;
    if (m->end == RQ && asks && m->kind == FIELD_NONE)
        return call_request(work, m);
    if (m->end == BQ && is_voice(m) && m->kind == FIELD_CHANNEL)
        return able_answer(work, m);
    if (m->end == BQ && m->first == UNABLE)
        return unable_answer(work, m);
    return IGNORED;
}

/* "Working call (127; 100 or 101; field 126s) on an offered or acknowledged
 * slot"; "Ship's end of call (117, 105, field 126s) while dialling or
 * answered", or in the hold; "same ship" each time. Before a call from ashore
 * is answered, either is ignored. */
int heard_on_working(struct work *work, uint32_t slot, const struct meaning *m) {
    const struct slot *held = &work->station->slots[slot];
    enum phase phase = held->phase;
    bool working_call = m->end == OTHER_END && is_voice(m);
    bool ends = m->end == RQ && m->first == END_OF_CALL;
    if (!is_ours(work->station, m) || m->kind != FIELD_NONE || !stores_request(phase) || m->self != held->request.self)
        return IGNORED;
    if (working_call && expects_working_call(phase))
        dial(work, slot);
    else if (ends && has_call(phase))
        ships_end(work, slot);
    else if (ends && is_held(phase))
        repeat_ships_end(work, slot);
    else
        return IGNORED;
    return DONE;
}
