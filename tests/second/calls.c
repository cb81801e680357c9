/* What happens to a slot and its call: offer, ring-back, dial, the two ends.
 * The station's clock already stands at the time of the event (or due time). */
#include "inside.h"

#define TENTHS_A_SECOND 10u
#define SECONDS_A_MINUTE 60u
#define SECONDS_AN_HOUR 3600u
#define HOURS_TOO_MANY 100u

/* "Duration: whole seconds, rounded down." The only turn of tenths to
 * charged seconds. */
uint32_t charged_seconds(uint32_t tenths) {
    return tenths / TENTHS_A_SECOND;
}

static struct slot *slot_at(struct work *work, uint32_t slot) {
    return &work->station->slots[slot];
}

/* "Answers repeat the request with identities exchanged". */
struct meaning exchanged(const struct meaning *request) {
    struct meaning m = *request;
    m.address = request->self;
    m.self = request->address;
    return m;
}

/* The acknowledgement (BQ) or the ring-back's "able" answer (RQ): "with the
 * channel". */
void send_able(struct work *work, uint32_t slot, uint8_t end) {
    struct meaning m = exchanged(&slot_at(work, slot)->request);
    m.kind = FIELD_CHANNEL;
    m.channel = work->station->channels[slot];
    m.end = end;
    act_send_calling(work, (uint8_t)slot, &m);
}

/* 02 no. 4: "once 4,294,967,295 has been given" there are none. */
bool numbers_left(const struct station *station) {
    return station->last_number < LAST_CALL_NUMBER;
}

/* The slot goes on with the request and the call number that it has, in this phase, its wait begun now. */
void go_on(struct work *work, uint32_t slot, enum phase phase) {
    const struct slot *held = slot_at(work, slot);
    struct slot next = {.phase = phase, .request = held->request, .number = held->number};
    next.due = due_after(work->station->clock, slot_wait(phase));
    *slot_at(work, slot) = next;
}

/* The slot is now this request's. 02 no. 4: "Each offer, ring-back or call from ashore that takes a slot gets the next call
 * number from 1; .. an offer made afresh takes a new one." */
void store(struct work *work, uint32_t slot, enum phase phase, const struct meaning *request) {
    slot_at(work, slot)->request = *request;
    slot_at(work, slot)->number = ++work->station->last_number;
    go_on(work, slot, phase);
}

/* "new request stored, acknowledgement sent, .. wait 160 from now"; the
 * carrier, if it is not yet on, was put on before. */
void offer(struct work *work, uint32_t slot, const struct meaning *request) {
    store(work, slot, PHASE_OFFERED, request);
    send_able(work, slot, BQ);
}

/* "takes the oldest: carrier on, the "able" answer but with RQ; wait 50" */
static void ring_back(struct work *work, uint32_t slot) {
    struct meaning request = work->station->queue[0].request;
    queue_drop(work->station, 0);
    store(work, slot, PHASE_RING_BACK, &request);
    act_carrier_on(work, slot);
    send_able(work, slot, RQ);
}

/* "send once more, wait 50" */
void repeat_ring_back(struct work *work, uint32_t slot) {
    go_on(work, slot, PHASE_RING_BACK_REPEATED);
    send_able(work, slot, RQ);
}

/* "acknowledged, wait 160" */
void acknowledge(struct work *work, uint32_t slot) {
    go_on(work, slot, PHASE_ACKNOWLEDGED);
}

/* "Whenever a slot is freed and a ship waits, the same event takes the
 * oldest"; 02 no. 4: with the numbers used up "no waiting ship is rung back" */
void free_slot(struct work *work, uint32_t slot) {
    static const struct slot empty = {0};
    *slot_at(work, slot) = empty;
    if (work->station->waiting_count > 0u && numbers_left(work->station))
        ring_back(work, slot);
}

/* "Offer due: carrier off, slot freed"; the same for an acknowledged slot
 * and after the second ring-back call. */
void close_unused(struct work *work, uint32_t slot) {
    act_carrier_off(work, slot);
    free_slot(work, slot);
}

/* "dial the stored request's number .. Carrier counts as present"; 02: "the
 * wait is 600 for dialling itself" */
void dial(struct work *work, uint32_t slot) {
    go_on(work, slot, PHASE_DIALLING);
    slot_at(work, slot)->carrier = CARRIER_PRESENT;
    act_dial(work, slot);
}

/* 02: "at it a new wait of 600 begins"; a carrier wait runs on. */
void await_reply(struct work *work, uint32_t slot) {
    struct slot *held = slot_at(work, slot);
    held->phase = PHASE_DIALLED_OUT;
    held->due = due_after(work->station->clock, slot_wait(held->phase));
}

/* "Off-hook while dialling: answered, the reply wait ends, a carrier wait
 * runs on." */
void begin_talk(struct work *work, uint32_t slot) {
    struct slot *held = slot_at(work, slot);
    held->phase = PHASE_ANSWERED;
    held->start = work->station->clock;
    held->due = 0;
}

/* "Duration: whole seconds, rounded down; unanswered, or 100 hours and over:
 * 126s." */
static struct duration call_duration(const struct slot *call, uint32_t clock) {
    struct duration result = {FIELD_NONE, 0, 0, 0};
    uint32_t seconds, hours;
    if (!talks(call->phase))
        return result;
    seconds = charged_seconds(clock - call->start);
    hours = seconds / SECONDS_AN_HOUR;
    if (hours >= HOURS_TOO_MANY)
        return result;
    result.kind = FIELD_DURATION;
    result.hours = (uint8_t)hours;
    result.minutes = (uint8_t)(seconds % SECONDS_AN_HOUR / SECONDS_A_MINUTE);
    result.seconds = (uint8_t)(seconds % SECONDS_A_MINUTE);
    return result;
}

/* "send 105/126 with .. the duration"; "At either end the number sent is the
 * stored request's." */
static void send_end(struct work *work, uint32_t slot, struct duration duration, uint8_t end) {
    struct meaning m = exchanged(&slot_at(work, slot)->request);
    m.first = END_OF_CALL;
    m.second = NO_INFORMATION;
    m.kind = duration.kind;
    m.hours = duration.hours;
    m.minutes = duration.minutes;
    m.seconds = duration.seconds;
    m.end = end;
    act_send_working(work, slot, &m);
}

/* What both ends share: "charge if answered, release line, send 105/126 ..,
 * carrier off". The call stops at the clock. */
static struct duration end_call(struct work *work, uint32_t slot, uint8_t end) {
    struct duration duration = call_duration(slot_at(work, slot), work->station->clock);
    if (talks(slot_at(work, slot)->phase))
        act_charge(work, slot);
    act_release(work, slot);
    send_end(work, slot, duration, end);
    act_carrier_off(work, slot);
    return duration;
}

/* "Coast's end (on-hook .., no reply, carrier loss, rule c): .. with 127 ..,
 * slot freed at once." */
void coasts_end(struct work *work, uint32_t slot) {
    end_call(work, slot, OTHER_END);
    free_slot(work, slot);
}

/* "Ship's end of call: .. with BQ and the duration, .. hold for 40" */
void ships_end(struct work *work, uint32_t slot) {
    struct duration duration = end_call(work, slot, BQ);
    go_on(work, slot, PHASE_HOLD);
    slot_at(work, slot)->duration = duration;
}

/* "Another such end from that ship in the hold: carrier on, the same answer
 * sent, carrier off; the wait unchanged." */
void repeat_ships_end(struct work *work, uint32_t slot) {
    act_carrier_on(work, slot);
    send_end(work, slot, slot_at(work, slot)->duration, BQ);
    act_carrier_off(work, slot);
}
