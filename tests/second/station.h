/* The automatic coast station of 01, with 02's nos. 1, 2 and 4, by value: it is handed in and the next
 * station is handed back, with the answer and the count of actions. */
#ifndef SECOND_STATION_H
#define SECOND_STATION_H

#include "../c/entries.h"
#include "sequence.h"

#define MOST_SLOTS 16u
#define MOST_WAITING 32u
#define MOST_ACTIONS 8u
#define ACTION_BYTES 40u
#define ACTION_ROOM (MOST_ACTIONS * ACTION_BYTES)
#define TIME_LIMIT 4000000000u
#define LAST_CALL_NUMBER 4294967295u

/* Waits, in tenths of a second. */
#define OFFER_WAIT 160u
#define RING_BACK_WAIT 50u
#define DIALLING_WAIT 600u
#define REPLY_WAIT 600u
#define CALLED_WAIT 50u
#define RINGING_WAIT 600u
#define DUPLEX_CARRIER_WAIT 50u
#define SIMPLEX_CARRIER_WAIT 450u
#define HOLD_WAIT 40u
#define QUEUE_WAIT 9000u

/* Answers and refusals. */
enum answer {
    DONE = 0,
    IGNORED = 1,
    SHIP_BAD = 15,
    MODE_BAD = 17,
    NUMBER_BAD = 19,
    WRONG_SIZE = 23,
    NOT_SOUND = 29,
    ROOM_TOO_SMALL = 30,
    TIME_OVER_LIMIT = 31,
    TIME_BEFORE_CLOCK = 32,
    WAIT_IS_DUE = 33,
    NO_SUCH_SLOT = 34,
    OPERATOR_REFUSED = 35,
    SET_UP_BAD = 36,
    NO_SLOT_FREE = 37,
    SHIP_ENGAGED = 38
};

/* In the order of their numbers in lent bytes. */
enum phase {
    PHASE_FREE,
    PHASE_OFFERED,
    PHASE_RING_BACK,
    PHASE_RING_BACK_REPEATED,
    PHASE_ACKNOWLEDGED,
    PHASE_DIALLING,
    PHASE_ANSWERED,
    PHASE_HOLD,
    PHASE_TAKEN,
    PHASE_DIALLED_OUT,
    PHASE_CALLED,
    PHASE_CALLED_AGAIN,
    PHASE_RINGING,
    PHASES
};

enum carrier { CARRIER_PRESENT, CARRIER_ABSENT };

/* What a send of 105/126 carries; kind is FIELD_NONE (126s) or FIELD_DURATION. */
struct duration {
    enum field_kind kind;
    uint8_t hours, minutes, seconds;
};

/* Parts that the phase does not use are 0 and are not looked at. */
struct slot {
    enum phase phase;
    enum carrier carrier;     /* the ship's, while dialling, dialled out or answered */
    uint32_t due;             /* offer, ring-back, acknowledged, dialling, reply, hold, called, ringing */
    uint32_t carrier_due;     /* while the carrier is absent */
    uint32_t start;           /* of an answered call, in tenths */
    uint32_t number;          /* of the call (02 no. 4), for as long as a request is stored */
    struct duration duration; /* of the hold's answer */
    struct meaning request;   /* stored from the offer, ring-back or call from ashore on */
};

struct waiting_ship {
    struct meaning request;
    uint32_t due;
};

struct station {
    uint32_t identity;
    uint32_t clock;
    uint32_t last_number; /* the last call number given, 0 at set-up */
    uint32_t channel_count;
    uint32_t waiting_count;
    uint8_t channels[MOST_SLOTS];
    struct slot slots[MOST_SLOTS];
    struct waiting_ship queue[MOST_WAITING]; /* oldest first */
};

struct step {
    int answer;
    uint32_t actions;
    struct station station; /* after a refusal: the one handed in */
};

/* As much room as every event wants. */
struct room {
    uint8_t bytes[ACTION_ROOM];
};

/* Room lent for actions; a refusal leaves every byte of it. */
struct lent {
    uint8_t *bytes;
    size_t length;
};

struct heard {
    const uint8_t *symbols;
    size_t count;
};

/* Whom a caller ashore wants. The digits are numbers, so that what is no digit is judged and not cut. */
struct caller {
    uint32_t ship, mode;
    const uint32_t *digits;
    size_t count;
};

/* Set-up: 0 or 36; for 36 the station handed back means nothing. */
struct step second_set_up(uint32_t identity, const uint32_t *channels, size_t count);

bool second_is_sound(const struct station *station);

/* The earliest due time, if any wait runs. */
bool second_next_due(const struct station *station, uint32_t *due);

/* The events, as the list of entries.h has them: each is handed the station,
 * its time, what the list says that it takes, and the room. */
#define BY_VALUE_alone
#define BY_VALUE_on_slot uint32_t slot,
#define BY_VALUE_by_hand uint32_t slot,
#define BY_VALUE_with_symbols struct heard heard,
#define BY_VALUE_on_slot_with_symbols uint32_t slot, struct heard heard,
#define BY_VALUE_to_ship struct caller caller,
#define AS_EVENT(letter, entry, takes) \
    struct step second_##entry(struct station station, uint32_t time, BY_VALUE_##takes struct lent room);
EVENTS(AS_EVENT)
#undef AS_EVENT

#endif
