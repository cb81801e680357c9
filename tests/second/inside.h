/* What the station's own files share; hosts include station.h only. */
#ifndef SECOND_INSIDE_H
#define SECOND_INSIDE_H

#include "phases.h"
#include "station.h"

/* One accepted event at work: the station as it becomes, the actions so far.
 * Every refusal was given before a work is made, so it may write the room. */
struct work {
    struct station *station;
    uint8_t *room;
    uint32_t actions;
};

/* ---- actions.c: blocks of 40 bytes ---- */
void act_carrier_on(struct work *work, uint32_t slot);
void act_carrier_off(struct work *work, uint32_t slot);
void act_send_calling(struct work *work, uint8_t slot_byte, const struct meaning *m);
void act_send_working(struct work *work, uint32_t slot, const struct meaning *m);
void act_dial(struct work *work, uint32_t slot);
void act_release(struct work *work, uint32_t slot);
void act_charge(struct work *work, uint32_t slot);
void act_ringing_on(struct work *work, uint32_t slot);
void act_ringing_off(struct work *work, uint32_t slot);
void act_busy_tone(struct work *work, uint32_t slot);

/* ---- waits.c ---- */
enum wait_kind { WAIT_NONE, WAIT_QUEUE, WAIT_CARRIER, WAIT_SLOT };

struct wait {
    enum wait_kind kind;
    uint32_t place; /* in the queue, or the slot */
    uint32_t due;
};

/* "a wait begun at s falls due at s + p + 1 tenth" */
uint32_t due_after(uint32_t begun, uint32_t wait);
uint32_t carrier_wait(const struct slot *slot);
struct wait earliest_wait(const struct station *station);
void fire_wait(struct work *work, struct wait wait);

/* ---- queue.c ---- */
uint32_t place_in_queue(const struct station *station, uint32_t ship);
void queue_drop(struct station *station, uint32_t place);
void queue_join(struct station *station, const struct meaning *request);

/* ---- calls.c: what happens to a slot and its call ---- */
uint32_t charged_seconds(uint32_t tenths);
struct meaning exchanged(const struct meaning *request);
bool numbers_left(const struct station *station);
void go_on(struct work *work, uint32_t slot, enum phase phase);
void store(struct work *work, uint32_t slot, enum phase phase, const struct meaning *request);
void send_able(struct work *work, uint32_t slot, uint8_t end);
void offer(struct work *work, uint32_t slot, const struct meaning *request);
void free_slot(struct work *work, uint32_t slot);
void close_unused(struct work *work, uint32_t slot);
void repeat_ring_back(struct work *work, uint32_t slot);
void acknowledge(struct work *work, uint32_t slot);
void coasts_end(struct work *work, uint32_t slot);
void ships_end(struct work *work, uint32_t slot);
void repeat_ships_end(struct work *work, uint32_t slot);
void dial(struct work *work, uint32_t slot);
void await_reply(struct work *work, uint32_t slot);
void begin_talk(struct work *work, uint32_t slot);

/* ---- ashore.c: a call from shore to ship, until it is answered ---- */
int judge_caller(const struct station *station, const struct caller *caller);
void call_ship(struct work *work, const struct caller *caller);
void call_ship_again(struct work *work, uint32_t slot);
void start_ringing(struct work *work, uint32_t slot);
void ship_transmits(struct work *work, uint32_t slot);
enum dropped_by { DROPPED_BY_CALLER, DROPPED_BY_COAST, DROPPED_BY_SHIP };
void drop_call(struct work *work, uint32_t slot, enum dropped_by by);

/* ---- station.c ---- */
bool is_ours(const struct station *station, const struct meaning *m);
struct meaning to_ours(const struct station *station, struct meaning m);

/* ---- request.c: sequences heard, addressed to this station ---- */
#define NO_SLOT MOST_SLOTS
uint32_t lowest_free(const struct station *station);
int heard_on_calling(struct work *work, const struct meaning *m);
int heard_on_working(struct work *work, uint32_t slot, const struct meaning *m);

#endif
