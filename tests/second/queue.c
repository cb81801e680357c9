/* "a queue of 32 waiting ships, oldest first" */
#include "inside.h"

/* The ship's place, or waiting_count if it does not wait. */
uint32_t place_in_queue(const struct station *station, uint32_t ship) {
    uint32_t place = 0;
    while (place < station->waiting_count && station->queue[place].request.self != ship)
        place++;
    return place;
}

/* Takes one ship out; the younger ones move up. */
void queue_drop(struct station *station, uint32_t place) {
    static const struct waiting_ship nobody = {0};
    for (uint32_t i = place; i + 1u < station->waiting_count; i++)
        station->queue[i] = station->queue[i + 1u];
    station->waiting_count--;
    station->queue[station->waiting_count] = nobody;
}

/* "join it, wait 9000" */
void queue_join(struct station *station, const struct meaning *request) {
    struct waiting_ship *last = &station->queue[station->waiting_count];
    last->request = *request;
    last->due = due_after(station->clock, QUEUE_WAIT);
    station->waiting_count++;
}
