/* What a script has reached of no. 2 of document 02: calls from shore to ship, from the caller's event to their end. */
#include "situations.h"

static bool from_ashore[MOST_SLOTS]; /* whether the call that talks there, or is in its hold, is such a one */

static bool is_called_again(enum phase phase) {
    return is_called(phase) && !is_called_once(phase);
}

static bool any(const struct station *station, bool (*wanted)(enum phase)) {
    for (uint32_t i = 0; i < station->channel_count; i++)
        if (wanted(station->slots[i].phase))
            return true;
    return false;
}

/* ---- the caller's event ---- */

static void note_engaged(const struct station *before, uint32_t ship) {
    for (uint32_t i = 0; i < before->channel_count; i++) {
        enum phase phase = before->slots[i].phase;
        if (!stores_request(phase) || before->slots[i].request.self != ship)
            continue;
        note_if(is_offered(phase), SEEN_ENGAGED_OFFERED);
        note_if(is_rung_once(phase), SEEN_ENGAGED_RING);
        note_if(is_rung_again(phase), SEEN_ENGAGED_RING_AGAIN);
        note_if(agreed(phase), SEEN_ENGAGED_AGREED);
        note_if(is_dialling(phase), SEEN_ENGAGED_DIALLING);
        note_if(is_dialled_out(phase), SEEN_ENGAGED_DIALLED_OUT);
        note_if(talks(phase), SEEN_ENGAGED_ANSWERED);
        note_if(is_held(phase), SEEN_ENGAGED_HOLD);
        note_if(is_called_once(phase), SEEN_ENGAGED_CALLED);
        note_if(is_called_again(phase), SEEN_ENGAGED_CALLED_AGAIN);
        note_if(is_ringing(phase), SEEN_ENGAGED_RINGING);
        note_if(any(before, is_free), SEEN_ENGAGED_BESIDE);
    }
    note_if(place_in_queue(before, ship) < before->waiting_count, SEEN_ENGAGED_WAITS);
}

static uint32_t digits_over_nine(const struct event *event) {
    uint32_t count = 0;
    for (size_t i = 0; i < event->count; i++)
        count += event->symbols[i] > 9u ? 1u : 0u;
    return count;
}

static void note_refused(const struct station *before, const struct event *event, int answer) {
    bool ship = !second_is_ship(event->ship), mode = event->mode != SIMPLEX && event->mode != DUPLEX;
    bool none = event->count == 0u, many = event->count > MOST_DIGITS, digit = digits_over_nine(event) > 0u;
    bool said = answer == SHIP_BAD || answer == MODE_BAD;
    note_if(answer == SHIP_BAD, SEEN_ASHORE_BAD_SHIP);
    note_if(answer == MODE_BAD, SEEN_ASHORE_BAD_MODE);
    note_if(answer == NUMBER_BAD && none, SEEN_ASHORE_NO_DIGIT);
    note_if(answer == NUMBER_BAD && many, SEEN_ASHORE_MANY_DIGITS);
    note_if(answer == NUMBER_BAD && digit, SEEN_ASHORE_BAD_DIGIT);
    note_if(said && ((ship && mode) || none || many || digit), SEEN_ASHORE_SEVERAL);
    note_if(answer == NO_SLOT_FREE, SEEN_FULL);
    note_if(answer == NO_SLOT_FREE && any(before, is_held), SEEN_FULL_HOLD);
    note_if(answer == NO_SLOT_FREE && any(before, is_taken), SEEN_FULL_TAKEN);
    if (answer == SHIP_ENGAGED)
        note_engaged(before, event->ship);
}

static void note_called(const struct station *before, const struct event *event, const struct step *step) {
    uint32_t slot = slot_of(&step->station, event->ship, false), free = 0;
    if (step->answer > IGNORED) {
        note_refused(before, event, step->answer);
        return;
    }
    for (uint32_t i = 0; i < before->channel_count; i++)
        free += is_free(before->slots[i].phase) ? 1u : 0u;
    note_if(event->mode == SIMPLEX, SEEN_ASHORE);
    note_if(event->mode == DUPLEX, SEEN_ASHORE_DUPLEX);
    note_if(slot > 0u, SEEN_ASHORE_GAP);
    note_if(free > 1u, SEEN_ASHORE_CHOICE);
    note_if(event->count == MOST_DIGITS, SEEN_ASHORE_SIXTEEN);
}

/* ---- what the ship sends ---- */

static bool is_voice(const struct meaning *m) {
    return m->first == SIMPLEX || m->first == DUPLEX;
}

static bool says_able(const struct meaning *m) {
    return m->end == BQ && is_voice(m) && m->kind == FIELD_CHANNEL;
}

/* Whether the channel is that of another ship which is called. */
static bool names_called(const struct station *before, const struct meaning *m) {
    for (uint32_t i = 0; i < before->channel_count; i++)
        if (before->channels[i] == m->channel && is_called(before->slots[i].phase) && before->slots[i].request.self != m->self)
            return true;
    return false;
}

static void note_able(const struct slot *held, bool ashore, const struct event *event, const struct meaning *m, bool done) {
    bool called = is_called(held->phase), another = m->count != held->request.count || m->second != held->request.second;
    note_if(done && is_called_once(held->phase), SEEN_ABLE_FIRST);
    note_if(done && is_called_again(held->phase), SEEN_ABLE_SECOND);
    note_if(done && called && event->time + 1u == held->due, SEEN_ABLE_LAST);
    note_if(done && called && m->first != held->request.first, SEEN_ABLE_MODE);
    note_if(done && called && another, SEEN_ABLE_VARIED);
    note_if(!done && called, SEEN_ABLE_CHANNEL);
    note_if(is_ringing(held->phase), SEEN_ABLE_TWICE);
    note_if(talks(held->phase) && ashore, SEEN_ABLE_ANSWERED);
}

static void note_unable(const struct station *before, const struct slot *held, bool ashore, const struct meaning *m) {
    bool answers = m->end == BQ;
    note_if(answers && is_called_once(held->phase), SEEN_UNABLE_FIRST);
    note_if(answers && is_called_again(held->phase), SEEN_UNABLE_SECOND);
    note_if(answers && is_ringing(held->phase), SEEN_UNABLE_RINGING);
    note_if(answers && talks(held->phase) && ashore, SEEN_UNABLE_ANSWERED);
    note_if(answers && is_rung(held->phase), SEEN_UNABLE_RING_BACK);
    note_if(answers && !is_being_called(held->phase) && any(before, is_being_called), SEEN_UNABLE_OTHER);
    note_if(!answers && is_being_called(held->phase), SEEN_UNABLE_END);
}

/* Rule c is not for data. */
static void note_request(const struct slot *held, bool ashore, const struct meaning *m, const struct step *step, bool back) {
    bool of_talk = ashore && talks(held->phase) && m->first != DATA, done = step->answer == DONE;
    note_if(is_called(held->phase), SEEN_ASKS_CALLED);
    note_if(is_ringing(held->phase), SEEN_ASKS_RINGING);
    note_if(is_being_called(held->phase) && m->first == SIMPLEX, SEEN_ASKS_SIMPLEX);
    note_if(is_being_called(held->phase) && m->first == DUPLEX, SEEN_ASKS_DUPLEX);
    note_if(is_being_called(held->phase) && m->first == DATA, SEEN_A_CALLED);
    note_if(of_talk && done, SEEN_ASHORE_RULE_C);
    note_if(of_talk && done && back, SEEN_ASHORE_RULE_C_BACK);
    note_if(of_talk && !done, SEEN_ASHORE_SPARED);
}

static void note_calling(const struct station *before, const struct event *event, const struct step *step) {
    static const struct slot none = {.phase = PHASE_FREE};
    struct meaning m;
    if (second_read(event->symbols, event->count, &m) != 0 || !is_ours(before, &m))
        return;
    uint32_t slot = slot_of(before, m.self, false);
    bool stands = slot != MOST_SLOTS, ashore = stands && from_ashore[slot], done = step->answer == DONE;
    const struct slot *held = stands ? &before->slots[slot] : &none;
    if (says_able(&m))
        note_able(held, ashore, event, &m, done);
    note_if(says_able(&m) && !done && names_called(before, &m), SEEN_ABLE_OTHER);
    if (m.first == UNABLE)
        note_unable(before, held, ashore, &m);
    if (m.end == RQ && m.kind == FIELD_NONE && (is_voice(&m) || m.first == DATA))
        note_request(held, ashore, &m, step, stands && is_rung_once(step->station.slots[slot].phase));
}

static void note_working(const struct station *before, const struct event *event, const struct step *step) {
    const struct slot *held = &before->slots[event->slot];
    bool ashore = from_ashore[event->slot], done = step->answer == DONE;
    struct meaning m;
    if (second_read(event->symbols, event->count, &m) != 0 || !is_ours(before, &m) || m.self != held->request.self)
        return;
    bool call = m.end == OTHER_END && is_voice(&m) && m.kind == FIELD_NONE;
    bool end = m.end == RQ && m.first == END_OF_CALL && m.kind == FIELD_NONE;
    note_if(says_able(&m) && is_called(held->phase), SEEN_ABLE_WORKING);
    note_if(call && is_called(held->phase), SEEN_WORKING_CALLED);
    note_if(call && is_ringing(held->phase), SEEN_WORKING_RINGING);
    note_if(end && is_called(held->phase), SEEN_END_CALLED);
    note_if(end && is_ringing(held->phase), SEEN_END_RINGING);
    note_if(end && done && ashore && talks(held->phase), SEEN_ASHORE_SHIPS_END);
    note_if(end && done && ashore && is_held(held->phase), SEEN_ASHORE_HOLD);
}

/* ---- carrier, line and operator ---- */

static void note_carrier(const struct slot *held, bool ashore, const struct event *event) {
    bool up = event->letter == 'U', down = event->letter == 'D', rings = is_ringing(held->phase);
    note_if(up && is_called_once(held->phase), SEEN_UP_CALLED);
    note_if(up && is_called_again(held->phase), SEEN_UP_CALLED_AGAIN);
    note_if(up && rings, SEEN_UP_RINGING);
    note_if(up && rings && event->time + 1u == held->due, SEEN_UP_RINGING_LAST);
    note_if(up && ashore && talks(held->phase) && held->carrier == CARRIER_ABSENT, SEEN_ASHORE_UP);
    note_if(down && is_called(held->phase), SEEN_DOWN_CALLED);
    note_if(down && rings, SEEN_DOWN_RINGING);
}

static void note_line(const struct slot *held, bool ashore, char letter) {
    enum phase phase = held->phase;
    bool laid = letter == 'H', lifted = letter == 'O', ended = letter == 'P', talk = ashore && talks(phase);
    note_if(laid && is_called_once(phase), SEEN_LAY_CALLED);
    note_if(laid && is_called_again(phase), SEEN_LAY_CALLED_AGAIN);
    note_if(laid && is_ringing(phase), SEEN_LAY_RINGING);
    note_if(laid && talk, SEEN_ASHORE_LAID);
    note_if(lifted && is_called(phase), SEEN_LIFT_CALLED);
    note_if(lifted && is_ringing(phase), SEEN_LIFT_RINGING);
    note_if(lifted && talk, SEEN_LIFT_ASHORE);
    note_if(ended && is_called(phase), SEEN_ENDED_CALLED);
    note_if(ended && is_ringing(phase), SEEN_ENDED_RINGING);
    note_if(ended && talk, SEEN_ENDED_ASHORE);
}

static void note_on_slot(const struct station *before, const struct event *event, int answer) {
    const struct slot *held = &before->slots[event->slot % MOST_SLOTS];
    bool ashore = from_ashore[event->slot % MOST_SLOTS];
    note_if(answer == OPERATOR_REFUSED && is_being_called(held->phase), SEEN_HAND_CALLED);
    if (answer > IGNORED)
        return;
    note_carrier(held, ashore, event);
    note_line(held, ashore, event->letter);
}

/* ---- time ---- */

static void note_together(const struct station *before, struct wait wait) {
    for (uint32_t i = 0; i < before->channel_count; i++) {
        const struct slot *other = &before->slots[i];
        note_if(i != wait.place && has_slot_wait(other->phase) && other->due == wait.due, SEEN_TIE_CALLED);
    }
}

static void note_tick(const struct station *before, uint32_t time) {
    struct wait wait = earliest_wait(before);
    const struct slot *held = &before->slots[wait.place];
    bool own = wait.kind == WAIT_SLOT, late = time > wait.due, duplex = held->request.first == DUPLEX;
    bool lost = wait.kind == WAIT_CARRIER && from_ashore[wait.place] && talks(held->phase);
    if (wait.kind == WAIT_NONE || wait.kind == WAIT_QUEUE || wait.due > time)
        return;
    note_if(own && is_called_once(held->phase), SEEN_DUE_CALLED);
    note_if(own && is_called_again(held->phase), SEEN_DUE_CALLED_AGAIN);
    note_if(own && is_ringing(held->phase), SEEN_DUE_RINGING);
    note_if(own && late && is_being_called(held->phase), SEEN_DUE_CALLED_LATE);
    note_if(lost && !duplex, SEEN_ASHORE_LOSS_SIMPLEX);
    note_if(lost && duplex, SEEN_ASHORE_LOSS_DUPLEX);
    note_if(lost && late, SEEN_ASHORE_LOSS_LATE);
    if (own && is_being_called(held->phase))
        note_together(before, wait);
}

/* ---- the whole step ---- */

/* Calls that were dropped, and whether their slot was given to a ship that waits. */
static void note_drops(const struct station *before, const struct station *after, char letter) {
    for (uint32_t i = 0; i < before->channel_count; i++) {
        enum phase was = before->slots[i].phase, is = after->slots[i].phase;
        bool back = is_being_called(was) && is_rung_once(is);
        note_if(back && letter == 'T' && is_called(was), SEEN_BACK_UNANSWERED);
        note_if(back && letter == 'T' && is_ringing(was), SEEN_BACK_RINGING);
        note_if(back && letter == 'Q', SEEN_BACK_UNABLE);
        note_if(back && letter == 'H', SEEN_BACK_LAID);
        note_if(is_being_called(was) && is_free(is), SEEN_DROP_ALONE);
        from_ashore[i] = (talks(is) || is_held(is)) && (from_ashore[i] || is_ringing(was));
    }
}

void note_ashore(const struct station *before, const struct event *event, const struct step *step) {
    bool accepted = step->answer <= IGNORED;
    if (event->letter == SET_UP_LETTER)
        return;
    if (takes_ship(event->letter))
        note_called(before, event, step);
    else if (event->letter == 'Q' && accepted)
        note_calling(before, event, step);
    else if (event->letter == 'W' && accepted)
        note_working(before, event, step);
    else if (event->letter == 'T' && accepted)
        note_tick(before, event->time);
    else if (takes_slot(event->letter))
        note_on_slot(before, event, step->answer);
    note_drops(before, &step->station, event->letter);
}
