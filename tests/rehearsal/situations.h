/* What a script may reach: each situation of document 01 and of nos. 1, 2 and 4 of 02, and its count. */
#ifndef SITUATIONS_H
#define SITUATIONS_H

#include "rehearsal.h"

#define SITUATIONS(X)                                                                       \
    X(A, "rule a")                                                                          \
    X(A_KNOWN, "rule a, the ship stands somewhere")                                         \
    X(B_SAME, "rule b, identical")                                                          \
    X(B_OTHER, "rule b, offered, another request")                                          \
    X(B_RING, "rule b, first ring-back")                                                    \
    X(B_RING_AGAIN, "rule b, second ring-back")                                             \
    X(B_AGREED, "rule b, acknowledged")                                                     \
    X(C_DUPLEX, "rule c, duplex without carrier")                                           \
    X(C_PRESENT, "rule c, simplex with carrier")                                            \
    X(C_DIALLING, "rule c ends a call, dialling")                                           \
    X(C_DIALLED_OUT, "rule c ends a call, dialled out")                                     \
    X(C_ANSWERED, "rule c ends an answered call")                                           \
    X(C_SEVEN, "rule c, charge, ring-back and answer, seven actions")                       \
    X(C_OFFERED, "rule c, then offered a slot again")                                       \
    X(D, "rule d")                                                                          \
    X(E, "rule e")                                                                          \
    X(E_GAP, "rule e, a slot above slot 0")                                                 \
    X(F, "rule f")                                                                          \
    X(F_LAST, "rule f, the 32nd place")                                                     \
    X(G, "rule g")                                                                          \
    X(CALL_IN_HOLD, "request of a ship in its hold")                                        \
    X(DIAL, "working call, offered")                                                        \
    X(DIAL_AGREED, "working call, acknowledged")                                            \
    X(DIAL_LAST, "working call in the last tenth")                                          \
    X(DIAL_OTHER_MODE, "working call of the other mode")                                    \
    X(WORKING_IN_RING, "working call in ring-back")                                         \
    X(WORKING_DIALLING, "working call, line dialling")                                      \
    X(WORKING_DIALLED_OUT, "working call, line dialled out")                                \
    X(WORKING_ANSWERED, "working call, call answered")                                      \
    X(BQ_FIRST, "BQ, first ring-back")                                                      \
    X(BQ_SECOND, "BQ, second ring-back")                                                    \
    X(BQ_CHANNEL, "BQ, another channel")                                                    \
    X(BQ_TWICE, "BQ, acknowledged already")                                                 \
    X(END_DIALLING, "ship's end, dialling")                                                 \
    X(END_DIALLED_OUT, "ship's end, dialled out")                                           \
    X(END_ANSWERED, "ship's end, answered")                                                 \
    X(END_HOLD, "ship's end in the hold")                                                   \
    X(END_HOLD_LAST, "ship's end in the hold's last tenth")                                 \
    X(END_OTHER, "end of call of another ship")                                             \
    X(END_FIELD, "end of call with a duration")                                             \
    X(ENDED, "dialling ended, carrier present")                                             \
    X(ENDED_SILENT, "dialling ended, carrier wait runs on")                                 \
    X(ENDED_LAST, "dialling ended in its last tenth")                                       \
    X(ENDED_AGAIN, "dialling ended a second time")                                          \
    X(ENDED_ANSWERED, "dialling ended, answered")                                           \
    X(ENDED_EARLY, "dialling ended, offered, ring-back or acknowledged")                    \
    X(ENDED_HOLD, "dialling ended, hold")                                                   \
    X(ENDED_IDLE, "dialling ended, free or taken")                                          \
    X(LIFT_DIALLING, "off-hook before dialling ended")                                      \
    X(LIFT_DIALLED_OUT, "off-hook after dialling ended")                                    \
    X(LIFT_LAST, "off-hook in the reply's last tenth")                                      \
    X(LIFT_LATE, "off-hook over a minute after the working call")                           \
    X(LIFT, "off-hook, carrier present")                                                    \
    X(LIFT_SILENT, "off-hook, carrier wait runs on")                                        \
    X(LIFT_AGAIN, "off-hook, answered")                                                     \
    X(LAY_DIALLING, "on-hook, dialling")                                                    \
    X(LAY_DIALLED_OUT, "on-hook, dialled out")                                              \
    X(LAY_ANSWERED, "on-hook, answered")                                                    \
    X(DOWN_SIMPLEX, "carrier down, simplex")                                                \
    X(DOWN_DUPLEX, "carrier down, duplex")                                                  \
    X(DOWN_AGAIN, "carrier down once more")                                                 \
    X(UP, "carrier up ends the wait")                                                       \
    X(UP_AGAIN, "carrier up, present already")                                              \
    X(CARRIER_ELSE, "carrier without a call")                                               \
    X(DUE_OFFER, "offer due")                                                               \
    X(DUE_AGREED, "acknowledged due")                                                       \
    X(DUE_RING, "first ring-back due")                                                      \
    X(DUE_RING_AGAIN, "second ring-back due")                                               \
    X(DUE_DIALLING, "no reply, dialling not ended")                                         \
    X(DUE_REPLY, "no reply, dialled out")                                                   \
    X(DUE_SIMPLEX, "carrier loss, simplex")                                                 \
    X(DUE_DUPLEX, "carrier loss, duplex")                                                   \
    X(DUE_DIALLED_OUT, "carrier loss, dialled out")                                         \
    X(DUE_ANSWERED, "carrier loss, answered")                                               \
    X(DUE_HOLD, "hold due")                                                                 \
    X(DUE_QUEUE, "queue entry due")                                                         \
    X(NONE_DUE, "tick, none due")                                                           \
    X(LATE, "late tick")                                                                    \
    X(LATE_CHARGE, "late tick that charges")                                                \
    X(TIE_QUEUE, "due together: two queue entries")                                         \
    X(TIE_QUEUE_SLOT, "due together: queue entry and slot")                                 \
    X(TIE_SLOTS, "due together: two slots")                                                 \
    X(TIE_ONE_SLOT, "due together: carrier loss and no reply of one slot")                  \
    X(RING_HIGH, "ring-back on a slot above slot 0")                                        \
    X(TAKE, "operator takes")                                                               \
    X(GIVE_BACK, "operator gives back")                                                     \
    X(GIVE_BACK_RING, "operator gives back, ring-back")                                     \
    X(HUNDRED_SHIP, "100 hours and over, ship's end")                                       \
    X(HUNDRED_COAST, "100 hours and over, coast's end")                                     \
    X(NINETY, "90 hours and more, under 100")                                               \
    X(AT_LIMIT, "accepted at the limit")                                                    \
    X(PAST_LIMIT, "a due time past the limit")                                              \
    X(NOT_OURS, "sequence to another")                                                      \
    X(A_CALLED, "data request of a ship being called")                                      \
    X(ASHORE, "call from ashore, simplex")                                                  \
    X(ASHORE_DUPLEX, "call from ashore, duplex")                                            \
    X(ASHORE_GAP, "call from ashore, a slot above slot 0")                                  \
    X(ASHORE_CHOICE, "call from ashore, several slots free")                                \
    X(ASHORE_SIXTEEN, "call from ashore, sixteen digits")                                   \
    X(ASHORE_BAD_SHIP, "call from ashore refused, no ship")                                 \
    X(ASHORE_BAD_MODE, "call from ashore refused, no mode")                                 \
    X(ASHORE_NO_DIGIT, "call from ashore refused, no digit")                                \
    X(ASHORE_MANY_DIGITS, "call from ashore refused, too many digits")                      \
    X(ASHORE_BAD_DIGIT, "call from ashore refused, a digit over 9")                         \
    X(ASHORE_SEVERAL, "call from ashore refused, several things wrong")                     \
    X(ENGAGED_OFFERED, "call from ashore refused, the ship is offered a slot")              \
    X(ENGAGED_RING, "call from ashore refused, the ship is rung back")                      \
    X(ENGAGED_RING_AGAIN, "call from ashore refused, the ship is rung back again")          \
    X(ENGAGED_AGREED, "call from ashore refused, the ship has acknowledged")                \
    X(ENGAGED_DIALLING, "call from ashore refused, the ship's line is dialled")             \
    X(ENGAGED_DIALLED_OUT, "call from ashore refused, the ship's line is dialled out")      \
    X(ENGAGED_ANSWERED, "call from ashore refused, the ship's call is answered")            \
    X(ENGAGED_HOLD, "call from ashore refused, the ship is in its hold")                    \
    X(ENGAGED_CALLED, "call from ashore refused, the ship is called")                       \
    X(ENGAGED_CALLED_AGAIN, "call from ashore refused, the ship is called again")           \
    X(ENGAGED_RINGING, "call from ashore refused, the ship's call rings")                   \
    X(ENGAGED_WAITS, "call from ashore refused, the ship waits")                            \
    X(ENGAGED_BESIDE, "call from ashore refused, the ship has a slot, and another is free") \
    X(FULL, "call from ashore refused, no slot free")                                       \
    X(FULL_HOLD, "call from ashore refused, no slot free, one in its hold")                 \
    X(FULL_TAKEN, "call from ashore refused, no slot free, one taken")                      \
    X(ABLE_FIRST, "BQ of a called ship, first sending")                                     \
    X(ABLE_SECOND, "BQ of a called ship, second sending")                                   \
    X(ABLE_LAST, "BQ of a called ship in the last tenth")                                   \
    X(ABLE_MODE, "BQ of a called ship, another mode")                                       \
    X(ABLE_VARIED, "BQ of a called ship, another number or second telecommand")             \
    X(ABLE_CHANNEL, "BQ of a called ship, another channel")                                 \
    X(ABLE_OTHER, "BQ of another ship, a called ship's channel")                            \
    X(ABLE_WORKING, "BQ of a called ship on the working channel")                           \
    X(ABLE_TWICE, "BQ of a called ship, it rings already")                                  \
    X(ABLE_ANSWERED, "BQ of a called ship, it talks already")                               \
    X(UNABLE_FIRST, "104 of a called ship, first sending")                                  \
    X(UNABLE_SECOND, "104 of a called ship, second sending")                                \
    X(UNABLE_RINGING, "104 of a called ship, it rings")                                     \
    X(UNABLE_ANSWERED, "104 of a called ship, it talks already")                            \
    X(UNABLE_OTHER, "104 of a ship that is not called, another is")                         \
    X(UNABLE_RING_BACK, "104 of a ship in ring-back")                                       \
    X(UNABLE_END, "104 of a called ship, without BQ")                                       \
    X(ASKS_CALLED, "request of a called ship")                                              \
    X(ASKS_RINGING, "request of a ship, its call rings")                                    \
    X(ASKS_SIMPLEX, "request of a ship being called, simplex")                              \
    X(ASKS_DUPLEX, "request of a ship being called, duplex")                                \
    X(WORKING_CALLED, "working call of a called ship")                                      \
    X(WORKING_RINGING, "working call, it rings")                                            \
    X(END_CALLED, "ship's end, it is called")                                               \
    X(END_RINGING, "ship's end, it rings")                                                  \
    X(UP_CALLED, "carrier up, called")                                                      \
    X(UP_CALLED_AGAIN, "carrier up, called again")                                          \
    X(UP_RINGING, "carrier up, it rings")                                                   \
    X(UP_RINGING_LAST, "carrier up in the ringing's last tenth")                            \
    X(DOWN_CALLED, "carrier down, called")                                                  \
    X(DOWN_RINGING, "carrier down, it rings")                                               \
    X(LAY_CALLED, "on-hook, called")                                                        \
    X(LAY_CALLED_AGAIN, "on-hook, called again")                                            \
    X(LAY_RINGING, "on-hook, it rings")                                                     \
    X(LIFT_CALLED, "off-hook, called")                                                      \
    X(LIFT_RINGING, "off-hook, it rings")                                                   \
    X(LIFT_ASHORE, "off-hook, answered call from ashore")                                   \
    X(ENDED_CALLED, "dialling ended, called")                                               \
    X(ENDED_RINGING, "dialling ended, it rings")                                            \
    X(ENDED_ASHORE, "dialling ended, answered call from ashore")                            \
    X(HAND_CALLED, "operator refused, called or ringing")                                   \
    X(DUE_CALLED, "first sending due")                                                      \
    X(DUE_CALLED_AGAIN, "second sending due")                                               \
    X(DUE_RINGING, "ringing due")                                                           \
    X(DUE_CALLED_LATE, "late tick, sending or ringing due")                                 \
    X(TIE_CALLED, "due together: sending or ringing, and another slot")                     \
    X(BACK_UNANSWERED, "ring-back, second sending due")                                     \
    X(BACK_RINGING, "ring-back, ringing due")                                               \
    X(BACK_UNABLE, "ring-back, 104 of a called ship")                                       \
    X(BACK_LAID, "ring-back, caller's on-hook")                                             \
    X(DROP_ALONE, "dropped, no ship waits")                                                 \
    X(ASHORE_SHIPS_END, "call from ashore ended by its ship")                               \
    X(ASHORE_HOLD, "call from ashore, ship's end in its hold")                              \
    X(ASHORE_LAID, "call from ashore ended by on-hook")                                     \
    X(ASHORE_LOSS_SIMPLEX, "call from ashore ended by carrier loss, simplex")               \
    X(ASHORE_LOSS_DUPLEX, "call from ashore ended by carrier loss, duplex")                 \
    X(ASHORE_LOSS_LATE, "call from ashore ended by carrier loss, late tick")                \
    X(ASHORE_RULE_C, "call from ashore ended by rule c")                                    \
    X(ASHORE_RULE_C_BACK, "call from ashore ended by rule c, ring-back")                    \
    X(ASHORE_SPARED, "call from ashore, rule c ignores the request")                        \
    X(ASHORE_UP, "call from ashore, carrier up ends its wait")                              \
    X(CHARGE_OFFER, "charge after an offer")                                                \
    X(CHARGE_ACKNOWLEDGED_AGAIN, "charge after a repeated acknowledgement")                 \
    X(CHARGE_AFRESH, "charge after an offer afresh, offered before")                        \
    X(CHARGE_AFRESH_RUNG, "charge after an offer afresh, rung back before")                 \
    X(CHARGE_AFRESH_AGREED, "charge after an offer afresh, acknowledged before")            \
    X(CHARGE_AFRESH_AGAIN, "charge after an offer afresh, acknowledged again")              \
    X(CHARGE_RING_BACK, "charge after a ring-back")                                         \
    X(CHARGE_RING_BACK_AGAIN, "charge after a ring-back sent twice")                        \
    X(CHARGE_ASHORE, "charge of a call from ashore")                                        \
    X(CHARGE_ASHORE_AGAIN, "charge of a call from ashore sent twice")                       \
    X(CHARGE_SAME_SHIP, "second charge of a ship on one slot, none between them")           \
    X(CHARGE_EARLIER, "charge with a lower number than the last")                           \
    X(CHARGE_BEHIND_REFUSED, "charge, a caller refused since the last number but its own")  \
    X(CHARGE_BEHIND_QUEUED, "charge, a ship queued since the last number but its own")      \
    X(NUMBERS_SKIPPED, "charge, numbers skipped since the last")                            \
    X(NUMBER_OVER_A_BYTE, "charge with a number over 255")

enum situation {
#define AS_NAME(name, words) SEEN_##name,
    SITUATIONS(AS_NAME)
#undef AS_NAME
        SEEN_COUNT
};

/* The second ring-back, and what follows a ring-back that the ship has answered. */
static inline bool is_rung_again(enum phase phase) {
    return is_rung(phase) && !is_rung_once(phase);
}

static inline bool agreed(enum phase phase) {
    return expects_working_call(phase) && !is_offered(phase);
}

/* ---- situations.c ---- */
void note_if(bool so, enum situation situation);
uint32_t slot_of(const struct station *station, uint32_t ship, bool hold); /* its hold's, or its other one; MOST_SLOTS: none */

/* ---- situations_ashore.c: calls from shore to ship, refused ones too ---- */
void note_ashore(const struct station *before, const struct event *event, const struct step *step);

/* ---- situations_numbers.c: what is charged, by how its number was given ---- */
void note_numbers(const struct station *before, const struct event *event, const struct step *step);

#endif
