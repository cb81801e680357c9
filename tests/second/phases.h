/* What a phase is asked: by the station, and by the generators of its tests. */
#ifndef SECOND_PHASES_H
#define SECOND_PHASES_H

#include "station.h"

static inline bool is_free(enum phase phase) {
    return phase == PHASE_FREE;
}

static inline bool is_taken(enum phase phase) {
    return phase == PHASE_TAKEN;
}

static inline bool is_offered(enum phase phase) {
    return phase == PHASE_OFFERED;
}

static inline bool is_rung_once(enum phase phase) {
    return phase == PHASE_RING_BACK;
}

/* Sent once, or once more. */
static inline bool is_rung(enum phase phase) {
    return is_rung_once(phase) || phase == PHASE_RING_BACK_REPEATED;
}

/* "on an offered or acknowledged slot" */
static inline bool expects_working_call(enum phase phase) {
    return is_offered(phase) || phase == PHASE_ACKNOWLEDGED;
}

/* To call on the channel, or to answer there when it is rung back. */
static inline bool expects_ship(enum phase phase) {
    return expects_working_call(phase) || is_rung(phase);
}

/* A line is being dialled .. */
static inline bool is_dialling(enum phase phase) {
    return phase == PHASE_DIALLING;
}

/* .. is dialled out, which the exchange tells (02 no. 1) .. */
static inline bool is_dialled_out(enum phase phase) {
    return phase == PHASE_DIALLED_OUT;
}

/* .. and is answered. */
static inline bool talks(enum phase phase) {
    return phase == PHASE_ANSWERED;
}

/* "off-hook answers in either wait", and whatever else 01 says of dialling holds in both. */
static inline bool expects_reply(enum phase phase) {
    return is_dialling(phase) || is_dialled_out(phase);
}

/* A line was dialled and is not released. */
static inline bool has_call(enum phase phase) {
    return expects_reply(phase) || talks(phase);
}

/* A ship is called from ashore (02 no. 2), for the first time .. */
static inline bool is_called_once(enum phase phase) {
    return phase == PHASE_CALLED;
}

/* .. or once more; it has not answered .. */
static inline bool is_called(enum phase phase) {
    return is_called_once(phase) || phase == PHASE_CALLED_AGAIN;
}

/* .. and now has, and rings at the caller's. */
static inline bool is_ringing(enum phase phase) {
    return phase == PHASE_RINGING;
}

/* "a ship being called, until that transmission" */
static inline bool is_being_called(enum phase phase) {
    return is_called(phase) || is_ringing(phase);
}

/* "the offered, ring-back, acknowledged, dialling and answered slots", and 02: "a called ship counts in the soundness rule" */
static inline bool holds_ship(enum phase phase) {
    return expects_ship(phase) || is_being_called(phase) || has_call(phase);
}

static inline bool is_held(enum phase phase) {
    return phase == PHASE_HOLD;
}

static inline bool stores_request(enum phase phase) {
    return holds_ship(phase) || is_held(phase);
}

static inline bool has_slot_wait(enum phase phase) {
    return expects_ship(phase) || expects_reply(phase) || is_being_called(phase) || is_held(phase);
}

static inline uint32_t slot_wait(enum phase phase) {
    if (expects_working_call(phase))
        return OFFER_WAIT;
    if (is_rung(phase))
        return RING_BACK_WAIT;
    if (is_dialling(phase))
        return DIALLING_WAIT;
    if (is_dialled_out(phase))
        return REPLY_WAIT;
    if (is_called(phase))
        return CALLED_WAIT;
    if (is_ringing(phase))
        return RINGING_WAIT;
    return is_held(phase) ? HOLD_WAIT : 0u;
}

#endif
