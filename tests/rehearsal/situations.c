/* What a script has reached, counted from the station before and after a step. */
#include <stdio.h>

#include "situations.h"

static const char *const words[] = {
#define AS_WORDS(name, words) words,
    SITUATIONS(AS_WORDS)
#undef AS_WORDS
};
static uint32_t times[SEEN_COUNT];
static uint32_t minute_ends[MOST_SLOTS]; /* the minute of dialling, of each slot's last call */

void note_if(bool so, enum situation situation) {
    times[situation] += so ? 1u : 0u;
}

uint32_t slot_of(const struct station *station, uint32_t ship, bool hold) {
    for (uint32_t i = 0; i < station->channel_count; i++) {
        enum phase phase = station->slots[i].phase;
        if ((hold ? is_held(phase) : holds_ship(phase)) && station->slots[i].request.self == ship)
            return i;
    }
    return MOST_SLOTS;
}

/* Rules d to g: where the ship stands afterwards. */
static void note_placed(const struct station *before, const struct meaning *m, const struct step *step) {
    uint32_t slot = slot_of(&step->station, m->self, false), left = before->waiting_count;
    bool waited = place_in_queue(before, m->self) < left;
    bool waits = place_in_queue(&step->station, m->self) < step->station.waiting_count;
    note_if(waited, SEEN_D);
    note_if(slot != MOST_SLOTS, SEEN_E);
    note_if(slot != MOST_SLOTS && slot > 0u, SEEN_E_GAP);
    note_if(!waited && waits, SEEN_F);
    note_if(!waited && waits && step->station.waiting_count == MOST_WAITING, SEEN_F_LAST);
    note_if(slot == MOST_SLOTS && !waits, SEEN_G);
    note_if(slot_of(before, m->self, true) != MOST_SLOTS, SEEN_CALL_IN_HOLD);
}

/* Rule b, by what the slot was. */
static void note_asked_again(const struct slot *held, const struct step *step, uint32_t slot) {
    bool same = step->station.slots[slot].due == held->due;
    note_if(is_offered(held->phase) && same, SEEN_B_SAME);
    note_if(is_offered(held->phase) && !same, SEEN_B_OTHER);
    note_if(is_rung_once(held->phase), SEEN_B_RING);
    note_if(is_rung_again(held->phase), SEEN_B_RING_AGAIN);
    note_if(agreed(held->phase), SEEN_B_AGREED);
}

/* Rule c, with what follows it. */
static void note_in_call(const struct slot *held, const struct step *step, uint32_t slot) {
    bool ended = step->answer == DONE;
    note_if(held->request.first == DUPLEX && held->carrier == CARRIER_ABSENT, SEEN_C_DUPLEX);
    note_if(held->request.first == SIMPLEX && held->carrier == CARRIER_PRESENT, SEEN_C_PRESENT);
    note_if(ended && is_dialling(held->phase), SEEN_C_DIALLING);
    note_if(ended && is_dialled_out(held->phase), SEEN_C_DIALLED_OUT);
    note_if(ended && talks(held->phase), SEEN_C_ANSWERED);
    note_if(ended && step->actions == 7u, SEEN_C_SEVEN);
    note_if(ended && is_offered(step->station.slots[slot].phase), SEEN_C_OFFERED);
}

static void note_request(const struct station *before, const struct meaning *m, const struct step *step) {
    uint32_t slot = slot_of(before, m->self, false);
    bool stands = slot != MOST_SLOTS, known = stands || place_in_queue(before, m->self) < before->waiting_count;
    if (stands && is_being_called(before->slots[slot].phase))
        return;
    if (m->first == DATA) {
        note_if(true, SEEN_A);
        note_if(known, SEEN_A_KNOWN);
    } else if (stands && has_call(before->slots[slot].phase)) {
        note_in_call(&before->slots[slot], step, slot);
    } else if (stands) {
        note_asked_again(&before->slots[slot], step, slot);
    } else {
        note_placed(before, m, step);
    }
}

static void note_calling(const struct station *before, const struct event *event, const struct step *step) {
    struct meaning m;
    uint32_t slot;
    enum phase phase;
    if (second_read(event->symbols, event->count, &m) != 0)
        return;
    note_if(!is_ours(before, &m), SEEN_NOT_OURS);
    if (!is_ours(before, &m) || m.first == END_OF_CALL || m.first == UNABLE)
        return;
    if (m.end == RQ && m.kind == FIELD_NONE)
        note_request(before, &m, step);
    slot = slot_of(before, m.self, false);
    if (m.end != BQ || m.kind != FIELD_CHANNEL || slot == MOST_SLOTS || m.first == DATA)
        return;
    phase = before->slots[slot].phase;
    note_if(is_rung_once(phase) && step->answer == DONE, SEEN_BQ_FIRST);
    note_if(is_rung_again(phase) && step->answer == DONE, SEEN_BQ_SECOND);
    note_if(agreed(phase), SEEN_BQ_TWICE);
    note_if(is_rung_once(phase) && step->answer == IGNORED, SEEN_BQ_CHANNEL);
}

static void note_working(const struct station *before, const struct event *event, const struct step *step) {
    const struct slot *held = &before->slots[event->slot];
    enum phase phase = held->phase;
    bool done = step->answer == DONE, own, call;
    struct meaning m;
    if (second_read(event->symbols, event->count, &m) != 0 || !is_ours(before, &m))
        return;
    own = m.self == held->request.self;
    call = own && m.end == OTHER_END && (m.first == SIMPLEX || m.first == DUPLEX) && m.kind == FIELD_NONE;
    note_if(done && is_offered(phase), SEEN_DIAL);
    note_if(done && agreed(phase), SEEN_DIAL_AGREED);
    note_if(done && call && event->time + 1u == held->due, SEEN_DIAL_LAST);
    note_if(done && call && m.first != held->request.first, SEEN_DIAL_OTHER_MODE);
    note_if(call && is_rung_once(phase), SEEN_WORKING_IN_RING);
    note_if(call && is_dialling(phase), SEEN_WORKING_DIALLING);
    note_if(call && is_dialled_out(phase), SEEN_WORKING_DIALLED_OUT);
    note_if(call && talks(phase), SEEN_WORKING_ANSWERED);
    note_if(done && is_dialling(phase), SEEN_END_DIALLING);
    note_if(done && is_dialled_out(phase), SEEN_END_DIALLED_OUT);
    note_if(done && talks(phase), SEEN_END_ANSWERED);
    note_if(done && is_held(phase), SEEN_END_HOLD);
    note_if(done && is_held(phase) && event->time + 1u == held->due, SEEN_END_HOLD_LAST);
    note_if(!done && has_call(phase) && m.first == END_OF_CALL && !own, SEEN_END_OTHER);
    note_if(!done && has_call(phase) && m.kind == FIELD_DURATION, SEEN_END_FIELD);
}

static void note_dialling_ended(const struct slot *held, uint32_t time) {
    bool dialling = is_dialling(held->phase), present = held->carrier == CARRIER_PRESENT;
    note_if(dialling && present, SEEN_ENDED);
    note_if(dialling && !present, SEEN_ENDED_SILENT);
    note_if(dialling && time + 1u == held->due, SEEN_ENDED_LAST);
    note_if(is_dialled_out(held->phase), SEEN_ENDED_AGAIN);
    note_if(talks(held->phase), SEEN_ENDED_ANSWERED);
    note_if(expects_ship(held->phase), SEEN_ENDED_EARLY);
    note_if(is_held(held->phase), SEEN_ENDED_HOLD);
    note_if(!stores_request(held->phase), SEEN_ENDED_IDLE);
}

static void note_lifted(const struct slot *held, uint32_t time, uint32_t minute_end) {
    bool out = is_dialled_out(held->phase), rings = expects_reply(held->phase), present = held->carrier == CARRIER_PRESENT;
    note_if(is_dialling(held->phase), SEEN_LIFT_DIALLING);
    note_if(out, SEEN_LIFT_DIALLED_OUT);
    note_if(out && time + 1u == held->due, SEEN_LIFT_LAST);
    note_if(out && time >= minute_end, SEEN_LIFT_LATE);
    note_if(rings && present, SEEN_LIFT);
    note_if(rings && !present, SEEN_LIFT_SILENT);
    note_if(talks(held->phase), SEEN_LIFT_AGAIN);
}

static void note_slot_event(const struct station *before, const struct event *event, const struct step *step) {
    const struct slot *held = &before->slots[event->slot];
    enum phase phase = held->phase;
    bool call = has_call(phase), present = held->carrier == CARRIER_PRESENT, duplex = held->request.first == DUPLEX;
    bool down = event->letter == 'D', up = event->letter == 'U';
    note_if(event->letter == 'H' && is_dialling(phase), SEEN_LAY_DIALLING);
    note_if(event->letter == 'H' && is_dialled_out(phase), SEEN_LAY_DIALLED_OUT);
    note_if(event->letter == 'H' && talks(phase), SEEN_LAY_ANSWERED);
    note_if(down && call && present && !duplex, SEEN_DOWN_SIMPLEX);
    note_if(down && call && present && duplex, SEEN_DOWN_DUPLEX);
    note_if(down && call && !present, SEEN_DOWN_AGAIN);
    note_if(up && call && !present, SEEN_UP);
    note_if(up && call && present, SEEN_UP_AGAIN);
    note_if((up || down) && !call && !is_being_called(phase), SEEN_CARRIER_ELSE);
    note_if(event->letter == 'M', SEEN_TAKE);
    note_if(event->letter == 'F', SEEN_GIVE_BACK);
    note_if(event->letter == 'F' && step->actions > 0u, SEEN_GIVE_BACK_RING);
}

/* The waits that fall due together with the first. */
static void note_together(const struct station *before, uint32_t due) {
    uint32_t queued = 0, slots = 0;
    for (uint32_t i = 0; i < before->waiting_count; i++)
        queued += before->queue[i].due == due ? 1u : 0u;
    for (uint32_t i = 0; i < before->channel_count; i++) {
        const struct slot *slot = &before->slots[i];
        bool silent = has_call(slot->phase) && slot->carrier == CARRIER_ABSENT && slot->carrier_due == due;
        bool own = has_slot_wait(slot->phase) && slot->due == due;
        slots += silent || own ? 1u : 0u;
        note_if(silent && own, SEEN_TIE_ONE_SLOT);
    }
    note_if(queued > 1u, SEEN_TIE_QUEUE);
    note_if(queued > 0u && slots > 0u, SEEN_TIE_QUEUE_SLOT);
    note_if(slots > 1u, SEEN_TIE_SLOTS);
}

static void note_fired(const struct station *before, const struct event *event, struct wait wait) {
    const struct slot *held = &before->slots[wait.place];
    bool own = wait.kind == WAIT_SLOT, silent = wait.kind == WAIT_CARRIER, duplex = held->request.first == DUPLEX;
    bool answered = silent && talks(held->phase), late = event->time > wait.due;
    note_if(own && is_offered(held->phase), SEEN_DUE_OFFER);
    note_if(own && agreed(held->phase), SEEN_DUE_AGREED);
    note_if(own && is_rung_once(held->phase), SEEN_DUE_RING);
    note_if(own && is_rung_again(held->phase), SEEN_DUE_RING_AGAIN);
    note_if(own && is_dialling(held->phase), SEEN_DUE_DIALLING);
    note_if(own && is_dialled_out(held->phase), SEEN_DUE_REPLY);
    note_if(own && is_held(held->phase), SEEN_DUE_HOLD);
    note_if(silent && !duplex, SEEN_DUE_SIMPLEX);
    note_if(silent && duplex, SEEN_DUE_DUPLEX);
    note_if(silent && is_dialled_out(held->phase), SEEN_DUE_DIALLED_OUT);
    note_if(answered, SEEN_DUE_ANSWERED);
    note_if(answered && late, SEEN_LATE_CHARGE);
    note_if(wait.kind == WAIT_QUEUE, SEEN_DUE_QUEUE);
    note_if(late, SEEN_LATE);
    note_together(before, wait.due);
}

static void note_tick(const struct station *before, const struct event *event) {
    struct wait wait = earliest_wait(before);
    bool fires = wait.kind != WAIT_NONE && wait.due <= event->time;
    note_if(!fires, SEEN_NONE_DUE);
    if (fires)
        note_fired(before, event, wait);
}

/* Calls that this step ended, by their length, slots that it rang back on, and lines that it dialled. */
static void note_changes(const struct station *before, const struct station *after) {
    for (uint32_t i = 0; i < before->channel_count; i++) {
        const struct slot *was = &before->slots[i], *is = &after->slots[i];
        uint32_t seconds = talks(was->phase) ? charged_seconds(after->clock - was->start) : 0u;
        bool stopped = talks(was->phase) && !talks(is->phase);
        note_if(stopped && seconds >= 360000u && is_held(is->phase), SEEN_HUNDRED_SHIP);
        note_if(stopped && seconds >= 360000u && !is_held(is->phase), SEEN_HUNDRED_COAST);
        note_if(stopped && seconds >= 324000u && seconds < 360000u, SEEN_NINETY);
        note_if(i > 0u && is_rung_once(is->phase) && !is_rung_once(was->phase), SEEN_RING_HIGH);
        if (is_dialling(is->phase))
            minute_ends[i] = is->due;
    }
}

void note_step(const struct station *before, const struct event *event, const struct step *step) {
    uint32_t due = 0;
    note_ashore(before, event, step);
    note_numbers(before, event, step);
    if (step->answer > IGNORED || event->letter == SET_UP_LETTER)
        return;
    switch (event->letter) {
    case 'Q': note_calling(before, event, step); break;
    case 'W': note_working(before, event, step); break;
    case 'C': break; /* noted before */
    case 'T': note_tick(before, event); break;
    case 'P': note_dialling_ended(&before->slots[event->slot], event->time); break;
    case 'O': note_lifted(&before->slots[event->slot], event->time, minute_ends[event->slot]); break;
    default: note_slot_event(before, event, step); break;
    }
    note_changes(before, &step->station);
    note_if(step->station.clock == TIME_LIMIT, SEEN_AT_LIMIT);
    note_if(second_next_due(&step->station, &due) && due > TIME_LIMIT, SEEN_PAST_LIMIT);
}

void print_situations(void) {
    for (size_t i = 0; i < SEEN_COUNT; i++)
        fprintf(stderr, "%s\t%u\n", words[i], times[i]);
}
