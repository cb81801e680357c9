/* What a script has reached of no. 4 of document 02: how the number of each charge was given, and what came between. */
#include "situations.h"

enum given { BY_OFFER, AFRESH, AFRESH_RUNG, AFRESH_AGREED, BY_RING_BACK, FROM_ASHORE };

/* The call that a slot has, or had last. */
static struct call {
    enum given given;
    bool again;                         /* acknowledged or sent once more */
    bool behind_refused, behind_queued; /* a caller was refused, or a ship queued, since the number before was given */
} calls[MOST_SLOTS];

static uint32_t last_ship[MOST_SLOTS]; /* charged on each slot */
static uint32_t last_charged;          /* number */
static bool refused, queued;           /* since the last number was given */

/* ---- a number is given ---- */

/* Rule b offers afresh where the same ship stood; behind rule c, a slot is offered that had a call. */
static enum given given_by(const struct slot *was, const struct slot *is) {
    if (is_called_once(is->phase))
        return FROM_ASHORE;
    if (is_rung_once(is->phase))
        return BY_RING_BACK;
    return is_rung(was->phase) ? AFRESH_RUNG : is_offered(was->phase) ? AFRESH : agreed(was->phase) ? AFRESH_AGREED : BY_OFFER;
}

static void note_given(struct call *call, const struct slot *was, const struct slot *is) {
    *call = (struct call){.given = given_by(was, is), .behind_refused = refused, .behind_queued = queued};
    refused = queued = false;
}

/* ---- and kept ---- */

/* An acknowledgement that was repeated, or a second sending. */
static bool is_sent_again(const struct slot *was, const struct slot *is, const struct event *event, const struct step *step) {
    struct meaning m;
    bool second_sending = is_rung_again(is->phase) || (is_called(is->phase) && !is_called_once(is->phase));
    if (!is_offered(is->phase))
        return second_sending && was->phase != is->phase;
    return event->letter == 'Q' && step->actions == 1u && second_read(event->symbols, event->count, &m) == 0 &&
           m.self == is->request.self && m.end == RQ && m.first == is->request.first && is_ours(&step->station, &m);
}

/* ---- a charge ---- */

static void note_origin(const struct call *call) {
    note_if(call->given == BY_OFFER && !call->again, SEEN_CHARGE_OFFER);
    note_if(call->given == BY_OFFER && call->again, SEEN_CHARGE_ACKNOWLEDGED_AGAIN);
    note_if(call->given == AFRESH, SEEN_CHARGE_AFRESH);
    note_if(call->given == AFRESH_RUNG, SEEN_CHARGE_AFRESH_RUNG);
    note_if(call->given == AFRESH_AGREED, SEEN_CHARGE_AFRESH_AGREED);
    note_if(call->given >= AFRESH && call->given <= AFRESH_AGREED && call->again, SEEN_CHARGE_AFRESH_AGAIN);
    note_if(call->given == BY_RING_BACK && !call->again, SEEN_CHARGE_RING_BACK);
    note_if(call->given == BY_RING_BACK && call->again, SEEN_CHARGE_RING_BACK_AGAIN);
    note_if(call->given == FROM_ASHORE && !call->again, SEEN_CHARGE_ASHORE);
    note_if(call->given == FROM_ASHORE && call->again, SEEN_CHARGE_ASHORE_AGAIN);
    note_if(call->behind_refused, SEEN_CHARGE_BEHIND_REFUSED);
    note_if(call->behind_queued, SEEN_CHARGE_BEHIND_QUEUED);
}

static void note_charge(uint32_t slot, const struct slot *was) {
    note_origin(&calls[slot]);
    note_if(last_ship[slot] == was->request.self, SEEN_CHARGE_SAME_SHIP);
    note_if(was->number < last_charged, SEEN_CHARGE_EARLIER);
    note_if(was->number > last_charged + 1u, SEEN_NUMBERS_SKIPPED);
    note_if(was->number > 255u, SEEN_NUMBER_OVER_A_BYTE);
    last_ship[slot] = was->request.self;
    last_charged = was->number;
}

/* An answered call that has left its slot, or gone on to its hold, was charged; then the slot may have its next number. */
void note_numbers(const struct station *before, const struct event *event, const struct step *step) {
    if (event->letter == SET_UP_LETTER)
        return;
    for (uint32_t i = 0; i < before->channel_count; i++) {
        const struct slot *was = &before->slots[i], *is = &step->station.slots[i];
        if (talks(was->phase) && !talks(is->phase))
            note_charge(i, was);
        if (stores_request(is->phase) && is->number != was->number)
            note_given(&calls[i], was, is);
        else if (is_sent_again(was, is, event, step))
            calls[i].again = true;
    }
    refused = refused || (takes_ship(event->letter) && step->answer > IGNORED);
    queued = queued || step->station.waiting_count > before->waiting_count;
}
