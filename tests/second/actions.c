/* "Actions handed out": blocks of 40 bytes into the lent room. */
#include "inside.h"

#define KIND_CARRIER_ON 1u
#define KIND_CARRIER_OFF 2u
#define KIND_SEND_CALLING 3u
#define KIND_SEND_WORKING 4u
#define KIND_DIAL 5u
#define KIND_RELEASE 6u
#define KIND_CHARGE 7u
#define KIND_RINGING_ON 8u
#define KIND_RINGING_OFF 9u
#define KIND_BUSY_TONE 10u

#define PAYLOAD_AT 4u
#define CHARGE_BYTES 20u

/* "kind, slot (255 for the 104 answers), payload length, 0, payload, zeros";
 * hands back the payload's place, zeros as yet. "At most 8 a step": rule c
 * gives the most, an answered call's end (4), a ring-back (2), an offer (2). */
static uint8_t *new_block(struct work *work, uint8_t kind, uint8_t slot_byte, uint8_t length) {
    uint8_t *block = work->room + work->actions * ACTION_BYTES;
    for (size_t i = 0; i < ACTION_BYTES; i++)
        block[i] = 0;
    block[0] = kind;
    block[1] = slot_byte;
    block[2] = length;
    work->actions++;
    return block + PAYLOAD_AT;
}

static void put_bytes(uint8_t *to, const uint8_t *from, size_t n) {
    for (size_t i = 0; i < n; i++)
        to[i] = from[i];
}

/* "four bytes each, low first" */
static void put_four(uint8_t *to, uint32_t value) {
    for (size_t i = 0; i < 4u; i++)
        to[i] = (uint8_t)(value >> (8u * i) & 255u);
}

static void act_send(struct work *work, uint8_t kind, uint8_t slot_byte, const struct meaning *m) {
    uint8_t sequence[LONGEST_SEQUENCE];
    size_t length = 0;
    if (second_write(m, sequence, sizeof sequence, &length) != 0)
        return; /* not reached: a sound station's answers are valid */
    put_bytes(new_block(work, kind, slot_byte, (uint8_t)length), sequence, length);
}

void act_carrier_on(struct work *work, uint32_t slot) {
    new_block(work, KIND_CARRIER_ON, (uint8_t)slot, 0);
}

void act_carrier_off(struct work *work, uint32_t slot) {
    new_block(work, KIND_CARRIER_OFF, (uint8_t)slot, 0);
}

void act_send_calling(struct work *work, uint8_t slot_byte, const struct meaning *m) {
    act_send(work, KIND_SEND_CALLING, slot_byte, m);
}

void act_send_working(struct work *work, uint32_t slot, const struct meaning *m) {
    act_send(work, KIND_SEND_WORKING, (uint8_t)slot, m);
}

/* "5 dial (digits, one a byte, 0 to 9)": the stored request's number. */
void act_dial(struct work *work, uint32_t slot) {
    const struct meaning *request = &work->station->slots[slot].request;
    put_bytes(new_block(work, KIND_DIAL, (uint8_t)slot, request->count), request->digits, request->count);
}

void act_release(struct work *work, uint32_t slot) {
    new_block(work, KIND_RELEASE, (uint8_t)slot, 0);
}

/* "7 charge (ship, start, stop, seconds; four bytes each, low first)": the
 * call stops at the clock. 02 no. 4: its number is "a fifth field". */
void act_charge(struct work *work, uint32_t slot) {
    const struct slot *call = &work->station->slots[slot];
    uint32_t stop = work->station->clock;
    uint8_t *payload = new_block(work, KIND_CHARGE, (uint8_t)slot, CHARGE_BYTES);
    put_four(payload, call->request.self);
    put_four(payload + 4, call->start);
    put_four(payload + 8, stop);
    put_four(payload + 12, charged_seconds(stop - call->start));
    put_four(payload + 16, call->number);
}

void act_ringing_on(struct work *work, uint32_t slot) {
    new_block(work, KIND_RINGING_ON, (uint8_t)slot, 0);
}

void act_ringing_off(struct work *work, uint32_t slot) {
    new_block(work, KIND_RINGING_OFF, (uint8_t)slot, 0);
}

/* "10 five seconds of busy tone": the exchange's, so that the line is released at once. */
void act_busy_tone(struct work *work, uint32_t slot) {
    new_block(work, KIND_BUSY_TONE, (uint8_t)slot, 0);
}
