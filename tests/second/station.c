/* Set-up and the events: refusals in 01's order, then the event itself. */
#include "inside.h"

static bool set_up_fits(uint32_t identity, const uint32_t *channels, size_t count) {
    if (!second_is_coast(identity) || count < 1u || count > MOST_SLOTS)
        return false;
    for (size_t i = 0; i < count; i++) {
        if (!second_is_channel(channels[i]))
            return false;
        for (size_t j = 0; j < i; j++)
            if (channels[i] == channels[j])
                return false;
    }
    return true;
}

/* "All slots begin free at clock 0." */
struct step second_set_up(uint32_t identity, const uint32_t *channels, size_t count) {
    struct step step = {0};
    if (!set_up_fits(identity, channels, count)) {
        step.answer = SET_UP_BAD;
        return step;
    }
    step.answer = DONE;
    step.station.identity = identity;
    step.station.channel_count = (uint32_t)count;
    for (size_t i = 0; i < count; i++)
        step.station.channels[i] = (uint8_t)channels[i];
    return step;
}

/* "to this station" */
bool is_ours(const struct station *station, const struct meaning *m) {
    return m->address == station->identity;
}

struct meaning to_ours(const struct station *station, struct meaning m) {
    m.address = station->identity;
    return m;
}

/* ---- refusals that every event shares, in order ---- */

/* 29 to 32: every event. */
static int judge_any(const struct station *station, uint32_t time, struct lent room) {
    if (!second_is_sound(station))
        return NOT_SOUND;
    if (room.length < ACTION_ROOM)
        return ROOM_TOO_SMALL;
    if (time > TIME_LIMIT)
        return TIME_OVER_LIMIT;
    return time < station->clock ? TIME_BEFORE_CLOCK : DONE;
}

/* 29 to 33: "not a tick and a wait is due at or before its time". */
static int judge_untimed(const struct station *station, uint32_t time, struct lent room) {
    int refusal = judge_any(station, time, room);
    uint32_t due = 0;
    if (refusal != DONE)
        return refusal;
    if (second_next_due(station, &due) && due <= time)
        return WAIT_IS_DUE;
    return DONE;
}

/* 29 to 34. */
static int judge_slot_event(const struct station *station, uint32_t time, uint32_t slot, struct lent room) {
    int refusal = judge_untimed(station, time, room);
    if (refusal != DONE)
        return refusal;
    return slot < station->channel_count ? DONE : NO_SUCH_SLOT;
}

static struct step unchanged(int refusal, const struct station *station) {
    struct step step = {0};
    step.answer = refusal;
    step.station = *station;
    return step;
}

static struct step changed(int answer, const struct work *work) {
    struct step step = {0};
    step.answer = answer;
    step.actions = work->actions;
    step.station = *work->station;
    return step;
}

/* "Any other accepted event sets the clock to its own time." */
static struct work begin(struct station *station, uint32_t time, struct lent room) {
    struct work work = {station, room.bytes, 0};
    station->clock = time;
    return work;
}

/* ---- sequences ---- */

struct step second_heard_on_channel_70(struct station station, uint32_t time, struct heard heard, struct lent room) {
    struct meaning m = {0};
    struct work work;
    int refusal = judge_untimed(&station, time, room);
    if (refusal == DONE)
        refusal = second_read(heard.symbols, heard.count, &m);
    if (refusal != DONE)
        return unchanged(refusal, &station);
    work = begin(&station, time, room);
    return changed(heard_on_calling(&work, &m), &work);
}

struct step second_heard_on_slot(struct station station, uint32_t time, uint32_t slot, struct heard heard, struct lent room) {
    struct meaning m = {0};
    struct work work;
    int refusal = judge_slot_event(&station, time, slot, room);
    if (refusal == DONE)
        refusal = second_read(heard.symbols, heard.count, &m);
    if (refusal != DONE)
        return unchanged(refusal, &station);
    work = begin(&station, time, room);
    return changed(heard_on_working(&work, slot, &m), &work);
}

/* ---- a caller ashore ---- */

/* "15 .., 17 .., 19 .., 38 .., 37 ..; in this order, after 33" */
struct step second_call_from_ashore(struct station station, uint32_t time, struct caller caller, struct lent room) {
    struct work work;
    int refusal = judge_untimed(&station, time, room);
    if (refusal == DONE)
        refusal = judge_caller(&station, &caller);
    if (refusal != DONE)
        return unchanged(refusal, &station);
    work = begin(&station, time, room);
    call_ship(&work, &caller);
    return changed(DONE, &work);
}

/* ---- the ship's carrier: "Either answers 0 even where nothing changes" ---- */

/* "carrier up ends it"; 02: "The first carrier up while it rings is the
 * ship's transmission" */
static int carrier_comes(struct work *work, uint32_t slot) {
    struct slot *held = &work->station->slots[slot];
    if (is_ringing(held->phase)) {
        ship_transmits(work, slot);
        return DONE;
    }
    if (!has_call(held->phase))
        return IGNORED;
    held->carrier = CARRIER_PRESENT;
    held->carrier_due = 0;
    return DONE;
}

/* "starts a wait of 50 duplex, 450 simplex; a second down doesn't restart
 * it" */
static int carrier_goes(struct work *work, uint32_t slot) {
    struct slot *held = &work->station->slots[slot];
    if (!has_call(held->phase))
        return IGNORED;
    if (held->carrier == CARRIER_PRESENT) {
        held->carrier = CARRIER_ABSENT;
        held->carrier_due = due_after(work->station->clock, carrier_wait(held));
    }
    return DONE;
}

/* ---- the line ---- */

/* 02: "A second P in a call, or one after the answer, is ignored" */
static int last_digit_sent(struct work *work, uint32_t slot) {
    if (!is_dialling(work->station->slots[slot].phase))
        return IGNORED;
    await_reply(work, slot);
    return DONE;
}

static int handset_lifted(struct work *work, uint32_t slot) {
    if (!expects_reply(work->station->slots[slot].phase))
        return IGNORED;
    begin_talk(work, slot);
    return DONE;
}

/* "Coast's end (on-hook while dialling or answered, ..)"; 02: "The caller's
 * on-hook before that drops the call too" */
static int handset_laid_down(struct work *work, uint32_t slot) {
    enum phase phase = work->station->slots[slot].phase;
    if (has_call(phase))
        coasts_end(work, slot);
    else if (is_being_called(phase))
        drop_call(work, slot, DROPPED_BY_CALLER);
    else
        return IGNORED;
    return DONE;
}

/* ---- the operator ---- */

static int taken_by_hand(struct work *work, uint32_t slot) {
    work->station->slots[slot].phase = PHASE_TAKEN;
    return DONE;
}

/* "gives it back (freed)" */
static int given_back(struct work *work, uint32_t slot) {
    free_slot(work, slot);
    return DONE;
}

/* ---- events with a time and a slot ---- */

typedef int slot_rule(struct work *work, uint32_t slot);

static struct step slot_event(struct station *station, uint32_t time, uint32_t slot, struct lent room, slot_rule *rule) {
    struct work work;
    int refusal = judge_slot_event(station, time, slot, room);
    if (refusal != DONE)
        return unchanged(refusal, station);
    work = begin(station, time, room);
    return changed(rule(&work, slot), &work);
}

/* 35 comes after 29 to 34. */
static struct step operator_event(
    struct station *station, uint32_t time, uint32_t slot, struct lent room, bool (*wanted)(enum phase), slot_rule *rule) {
    int refusal = judge_slot_event(station, time, slot, room);
    if (refusal == DONE && !wanted(station->slots[slot].phase))
        refusal = OPERATOR_REFUSED;
    if (refusal != DONE)
        return unchanged(refusal, station);
    return slot_event(station, time, slot, room, rule);
}

struct step second_carrier_up(struct station station, uint32_t time, uint32_t slot, struct lent room) {
    return slot_event(&station, time, slot, room, carrier_comes);
}

struct step second_carrier_down(struct station station, uint32_t time, uint32_t slot, struct lent room) {
    return slot_event(&station, time, slot, room, carrier_goes);
}

struct step second_dialling_ended(struct station station, uint32_t time, uint32_t slot, struct lent room) {
    return slot_event(&station, time, slot, room, last_digit_sent);
}

struct step second_off_hook(struct station station, uint32_t time, uint32_t slot, struct lent room) {
    return slot_event(&station, time, slot, room, handset_lifted);
}

struct step second_on_hook(struct station station, uint32_t time, uint32_t slot, struct lent room) {
    return slot_event(&station, time, slot, room, handset_laid_down);
}

/* "operator takes a slot not free": 35 */
struct step second_take(struct station station, uint32_t time, uint32_t slot, struct lent room) {
    return operator_event(&station, time, slot, room, is_free, taken_by_hand);
}

/* "or gives back one not taken": 35 */
struct step second_give_back(struct station station, uint32_t time, uint32_t slot, struct lent room) {
    return operator_event(&station, time, slot, room, is_taken, given_back);
}

/* "The tick event at t fires the earliest wait due at or before t, one only,
 * and sets the clock to its due time; with none due the clock becomes t." */
struct step second_tick(struct station station, uint32_t time, struct lent room) {
    struct work work;
    struct wait wait;
    int refusal = judge_any(&station, time, room);
    if (refusal != DONE)
        return unchanged(refusal, &station);
    wait = earliest_wait(&station);
    if (wait.kind == WAIT_NONE || wait.due > time) {
        work = begin(&station, time, room);
    } else {
        work = begin(&station, wait.due, room);
        fire_wait(&work, wait);
    }
    return changed(DONE, &work);
}
