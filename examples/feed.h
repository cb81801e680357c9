/* The rack's feed: a text line for each thing that happens, with its time in seconds.
 *
 *   # a remark
 *   station 002001234 on 26 27                 set the station up, a slot for each channel
 *   10.0 heard 70 SHIP asks MODE NUMBER        a ship's request; MODE is simplex, duplex or data
 *   10.0 heard 70 SHIP agrees 26 MODE NUMBER   its answer to a ring-back or a call: it comes to that channel
 *   10.0 heard 70 SHIP declines NUMBER         its answer to a call that it cannot take
 *   14.0 heard 26 SHIP calls MODE NUMBER       its call on the working channel
 *   90.0 heard 26 SHIP ends NUMBER             its end of call
 *   90.0 heard 26 symbols 123 0 20 1 ..        whatever symbols were heard
 *   20.0 up 26                                 the ship's carrier is there; `down` where it is gone
 *   20.0 dialled 26                            the exchange has dialled the number to its end
 *   20.0 off-hook 26                           the handset ashore is lifted; `on-hook` where it is put down
 *   20.0 from-ashore SHIP MODE NUMBER          somebody ashore, who has this number, calls the ship
 *   20.0 take 26                               the operator takes the channel; `give-back` where he gives it back
 *   20.0 tick                                  a tick, needed or not
 *   20.0 late 0.5                              from now on the timer rings so many seconds late
 */
#ifndef FEED_H
#define FEED_H

#include <stdbool.h>
#include <stddef.h>
#include <stdint.h>

#define LINE_MOST 200u

struct line {
    char text[LINE_MOST + 1u];
    const char *unreadable; /* why it cannot be read, or NULL */
};

typedef uint64_t slot_event(uint8_t *station, size_t size, uint32_t time, uint32_t slot, uint8_t *room, size_t room_size);

enum kind { SET_UP, HEARD, ON_SLOT, FROM_ASHORE, TICK, LATE };

struct order {
    enum kind kind;
    uint32_t time, channel;
    uint32_t number;               /* SET_UP: the identity; FROM_ASHORE: the ship; LATE: tenths */
    uint8_t mode;                  /* FROM_ASHORE */
    slot_event *event;             /* ON_SLOT */
    uint8_t bytes[LINE_MOST / 2u]; /* SET_UP: channels; HEARD: symbols; FROM_ASHORE: digits */
    size_t count;
};

/* The next line of standard input; false at its end. */
bool next_line(struct line *line);

/* Whether a line is empty or a remark. */
bool says_nothing(const struct line *line);

/* Reads a line, for the station of this identity; false where it cannot be understood. */
bool read_order(const struct line *line, uint32_t station, struct order *order);

#endif
