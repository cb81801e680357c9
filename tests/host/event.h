/* A line of a script as an event, handed in through the calls of include/coast.h. */
#ifndef EVENT_H
#define EVENT_H

#include <stdbool.h>
#include <stddef.h>
#include <stdint.h>

#include "../c/entries.h"

#define LINE_MOST 200u
#define LIST_MOST (LINE_MOST / 2u)

struct line {
    uint8_t text[LINE_MOST];
    size_t length;
    bool too_long;
};

struct event {
    char letter;
    uint32_t number; /* the time; for S the identity */
    uint32_t slot, ship, mode;
    const uint8_t *list; /* symbols; for S channels, for a call from ashore digits */
    size_t count;
};

/* The next line of standard input; false at its end. */
bool read_line(struct line *line);

/* Reads a line, its list into a room of LIST_MOST bytes; false where document 01 has 40 for it. */
bool read_event(const struct line *line, struct event *event, uint8_t *list);

/* Gives what the entry returned. */
uint64_t hand_in(const struct entries *to, const struct event *event, const struct lent_bytes *lent);

#endif
