/* "Time and the slots": when waits fall due, in which order, what they do. */
#include "inside.h"

uint32_t due_after(uint32_t begun, uint32_t wait) {
    return begun + wait + 1u;
}

/* "a wait of 50 duplex, 450 simplex"; "The stored request's mode holds". */
uint32_t carrier_wait(const struct slot *slot) {
    return slot->request.first == DUPLEX ? DUPLEX_CARRIER_WAIT : SIMPLEX_CARRIER_WAIT;
}

static void take_if_earlier(struct wait *earliest, enum wait_kind kind, uint32_t place, uint32_t due) {
    if (earliest->kind != WAIT_NONE && due >= earliest->due)
        return;
    earliest->kind = kind;
    earliest->place = place;
    earliest->due = due;
}

/* "Waits due together go in this order: queue entries, oldest first; slots,
 * lowest first; in one slot carrier loss before no reply." */
struct wait earliest_wait(const struct station *station) {
    struct wait earliest = {WAIT_NONE, 0, 0};
    for (uint32_t i = 0; i < station->waiting_count; i++)
        take_if_earlier(&earliest, WAIT_QUEUE, i, station->queue[i].due);
    for (uint32_t i = 0; i < station->channel_count; i++) {
        const struct slot *slot = &station->slots[i];
        if (has_call(slot->phase) && slot->carrier == CARRIER_ABSENT)
            take_if_earlier(&earliest, WAIT_CARRIER, i, slot->carrier_due);
        if (has_slot_wait(slot->phase))
            take_if_earlier(&earliest, WAIT_SLOT, i, slot->due);
    }
    return earliest;
}

bool second_next_due(const struct station *station, uint32_t *due) {
    struct wait earliest = earliest_wait(station);
    if (earliest.kind == WAIT_NONE)
        return false;
    *due = earliest.due;
    return true;
}

/* What a slot's own wait does when it falls due. */
static void fire_slot(struct work *work, uint32_t slot) {
    enum phase phase = work->station->slots[slot].phase;
    if (is_rung_once(phase))
        repeat_ring_back(work, slot);
    else if (is_called_once(phase))
        call_ship_again(work, slot);
    else if (is_being_called(phase))
        drop_call(work, slot, DROPPED_BY_COAST);
    else if (expects_ship(phase))
        close_unused(work, slot);
    else if (expects_reply(phase))
        coasts_end(work, slot);
    else if (is_held(phase))
        free_slot(work, slot);
}

/* The clock already stands at the due time. "A queue entry due is dropped." */
void fire_wait(struct work *work, struct wait wait) {
    if (wait.kind == WAIT_QUEUE)
        queue_drop(work->station, wait.place);
    else if (wait.kind == WAIT_CARRIER)
        coasts_end(work, wait.place);
    else if (wait.kind == WAIT_SLOT)
        fire_slot(work, wait.place);
}
