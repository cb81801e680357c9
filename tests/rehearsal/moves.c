/* What the next line is: a ship, the person ashore, the operator or the host does something that fits, or nearly fits. */
#include "rehearsal.h"

#define NONE MOST_SLOTS

static bool ends(enum phase phase) {
    return has_call(phase) || is_held(phase);
}

/* A slot of that kind by chance, or none. */
static uint32_t any_slot(bool (*wanted)(enum phase)) {
    uint32_t count = stage.station.channel_count, from = chance(count);
    for (uint32_t i = 0; i < count; i++)
        if (wanted(stage.station.slots[(from + i) % count].phase))
            return (from + i) % count;
    return NONE;
}

/* ---- moves: each fills in the event, and hands back the wait that it begins ---- */

static uint32_t call(struct event *event) {
    struct meaning m = new_request(stage.ships[chance(stage.ship_count)]);
    event->letter = 'Q';
    if (one_in(20))
        m = mistaken(m);
    put_sequence(event, &m);
    return one_in(4) ? QUEUE_WAIT : OFFER_WAIT;
}

/* A ship that stands somewhere calls once more. */
static uint32_t call_again(struct event *event) {
    uint32_t slot = any_slot(stores_request), waiting = stage.station.waiting_count;
    bool queued = waiting > 0u && (slot == NONE || one_in(3));
    struct meaning m;
    if (!queued && slot == NONE)
        return call(event);
    m = queued ? stage.station.queue[chance(waiting)].request : stage.station.slots[slot].request;
    if (one_in(2))
        m = varied(m);
    event->letter = 'Q';
    put_sequence(event, &m);
    return OFFER_WAIT;
}

/* The ship does what it was offered, or what one does that is called; with nothing to do it may call once more where its line is
 * dialled. */
static uint32_t answer(struct event *event) {
    uint32_t slot = any_slot(one_in(3) ? is_rung : expects_ship), named;
    uint32_t called = any_slot(one_in(4) ? talks : is_being_called);
    const struct slot *held;
    struct meaning m;
    bool ring;
    if (called != NONE && (slot == NONE || !one_in(3)))
        return answer_caller(event, called);
    if (slot == NONE && one_in(12))
        slot = any_slot(has_call);
    if (slot == NONE)
        return call(event);
    held = &stage.station.slots[slot];
    ring = is_rung(held->phase) ? !one_in(8) : one_in(12);
    named = one_in(12) ? chance(stage.station.channel_count) : slot;
    m = ring ? as_ring_back_answer(held->request, stage.station.channels[named]) : as_working_call(held->request);
    if (ring && one_in(24))
        m = as_unable(held->request);
    else if (one_in(12))
        m = mistaken(m);
    event->letter = ring != one_in(40) ? 'Q' : 'W';
    event->slot = one_in(40) ? chance(stage.station.channel_count) : slot;
    put_sequence(event, &m);
    return ring ? OFFER_WAIT : DIALLING_WAIT;
}

/* The exchange tells that dialling has ended, seldom where nothing is dialled. */
static uint32_t exchange(struct event *event) {
    uint32_t slot = any_slot(one_in(4) ? has_call : one_in(5) ? is_being_called : is_dialling);
    if (slot == NONE && !one_in(8))
        return answer(event);
    event->letter = 'P';
    event->slot = slot == NONE || one_in(20) ? chance(stage.station.channel_count) : slot;
    return REPLY_WAIT;
}

/* The handset ashore; a caller's is off. */
static uint32_t handset(struct event *event) {
    uint32_t slot = any_slot(one_in(5) ? is_being_called : has_call);
    bool rings = slot != NONE && expects_reply(stage.station.slots[slot].phase);
    event->slot = slot == NONE || one_in(20) ? chance(stage.station.channel_count) : slot;
    event->letter = one_in(rings ? 6u : 2u) ? 'H' : 'O';
    return RING_BACK_WAIT;
}

/* The ship's carrier, seldom before it answers a caller. */
static uint32_t carrier(struct event *event) {
    uint32_t slot = any_slot(one_in(8) ? is_being_called : has_call);
    bool duplex = slot != NONE && stage.station.slots[slot].request.first == DUPLEX;
    event->slot = slot == NONE || one_in(20) ? chance(stage.station.channel_count) : slot;
    event->letter = one_in(3) ? 'U' : 'D';
    return duplex ? DUPLEX_CARRIER_WAIT : SIMPLEX_CARRIER_WAIT;
}

static uint32_t end_call(struct event *event) {
    uint32_t slot = any_slot(ends);
    struct meaning m;
    if (slot == NONE)
        return call(event);
    m = as_end(stage.station.slots[slot].request);
    if (one_in(8))
        m = mistaken(m);
    event->letter = one_in(30) ? 'Q' : 'W';
    event->slot = one_in(30) ? chance(stage.station.channel_count) : slot;
    put_sequence(event, &m);
    return HOLD_WAIT;
}

/* A caller ashore, less often where no slot is free. */
static uint32_t caller(struct event *event) {
    return any_slot(is_free) == NONE && one_in(2) ? answer(event) : call_from_ashore(event);
}

/* The operator. */
static uint32_t hand(struct event *event) {
    bool take = one_in(2);
    uint32_t slot = any_slot(take ? is_free : is_taken);
    event->letter = take ? 'M' : 'F';
    event->slot = slot == NONE || one_in(8) ? chance(stage.station.channel_count) : slot;
    return RING_BACK_WAIT;
}

static uint32_t stray(struct event *event) {
    event->letter = one_in(2) ? 'Q' : 'W';
    event->slot = chance(stage.station.channel_count);
    put_stray(event);
    return OFFER_WAIT;
}

typedef uint32_t filler(struct event *event);
static filler *const fillers[MOVES] = {
    [CALL] = call,
    [AGAIN] = call_again,
    [ANSWER] = answer,
    [EXCHANGE] = exchange,
    [LINE] = handset,
    [CARRIER] = carrier,
    [END] = end_call,
    [HAND] = hand,
    [STRAY] = stray,
    [ASHORE] = caller,
};

/* ---- the whole line ---- */

/* Time, slot, sequence and caller, one of them or several at once, so that the refusals' order shows. */
static void spoil(struct event *event) {
    if (one_in(3))
        event->time = wrong_time();
    if (takes_slot(event->letter) && one_in(3))
        event->slot = stage.station.channel_count + (one_in(2) ? 0u : chance(4294967295u - MOST_SLOTS));
    if (takes_symbols(event->letter) && !one_in(4))
        spoil_sequence(event);
    if (takes_ship(event->letter))
        spoil_caller(event);
}

static char without_symbols(void) {
    static const char letters[] = {EVENTS(ITS_LETTER)};
    uint32_t first = 0;
    while (takes_symbols(letters[first]))
        first++;
    return letters[first + chance((uint32_t)sizeof letters - first)];
}

static enum move choose(const struct mood *mood) {
    uint32_t all = 0, drawn;
    for (uint32_t i = 0; i < MOVES; i++)
        all += mood->weights[i];
    drawn = chance(all);
    for (uint32_t i = 0; i < MOVES; i++) {
        if (drawn < mood->weights[i])
            return (enum move)i;
        drawn -= mood->weights[i];
    }
    return TIME;
}

void pass_time(uint32_t time) {
    struct event tick = {.letter = 'T', .time = time};
    play(&tick);
}

/* In time, exact or late, or with none due. */
static void pass_some_time(void) {
    uint32_t time = soon(OFFER_WAIT, 0), due = 0;
    if (next_due(&due) && !one_in(6))
        time = one_in(2) ? due : one_in(4) ? due - 1u : due + chance(700);
    if (time < stage.station.clock || time > TIME_LIMIT)
        time = stage.station.clock;
    pass_time(one_in(40) ? wrong_time() : time);
}

void make_move(const struct mood *mood) {
    enum move move = choose(mood);
    struct event event = {0};
    if (move == TIME) {
        pass_some_time();
        return;
    }
    if (move == LEAP) {
        uint32_t time = leap();
        catch_up(time);
        fillers[one_in(3) ? CARRIER : one_in(2) ? LINE : END](&event);
        event.time = time;
    } else if (move == NOISE) {
        event.letter = without_symbols();
        event.time = soon(OFFER_WAIT, 0);
        if (takes_ship(event.letter))
            put_caller(&event, stage.ships[0]);
        if (one_in(4))
            play_odd();
        else
            play_unreadable(&event);
        return;
    } else {
        uint32_t wait = fillers[move](&event);
        event.time = soon(wait, event.slot);
    }
    if (one_in(mood->spoilt))
        spoil(&event);
    else if (!one_in(16))
        catch_up(event.time);
    play(&event);
}
