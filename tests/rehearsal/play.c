/* A line is written, and the station under way follows it. */
#include <stdio.h>
#include <string.h>

#include "rehearsal.h"

struct stage stage;
static bool feed_owed; /* the last line's line feed is written with the next line, so that a script can end without one */

void write_text(const char *text, size_t length) {
    if (feed_owed)
        putchar('\n');
    fwrite(text, 1, length, stdout);
    feed_owed = true;
    if (stage.lines_left > 0u)
        stage.lines_left--;
}

/* Half of the scripts end without a line feed. */
void end_script(void) {
    if (feed_owed && one_in(2))
        putchar('\n');
    feed_owed = false;
}

size_t put_text(char *text, const struct event *event) {
    size_t length = 1;
    text[0] = event->letter;
    if (event->letter == SET_UP_LETTER)
        length += (size_t)sprintf(text + length, " %09u", event->slot);
    else
        length += (size_t)sprintf(text + length, " %u", event->time);
    if (takes_slot(event->letter))
        length += (size_t)sprintf(text + length, " %u", event->slot);
    if (takes_ship(event->letter))
        length += (size_t)sprintf(text + length, " %u %u", event->ship, event->mode);
    for (size_t i = 0; i < event->count; i++)
        length += (size_t)sprintf(text + length, " %u", event->symbols[i]);
    return length;
}

/* Zeros before a number say nothing, up to a line of exactly 200 characters. */
static size_t put_zeros(char *text, size_t length) {
    size_t zeros = one_in(2) ? LINE_MOST - length : chance((uint32_t)(LINE_MOST - length) + 1u);
    size_t at = one_in(2) ? 2u : 2u + chance((uint32_t)length - 2u);
    while (text[at - 1u] != ' ')
        at--;
    memmove(text + at + zeros, text + at, length - at);
    memset(text + at, '0', zeros);
    return length + zeros;
}

static struct caller caller_in(const struct event *event, uint32_t *digits) {
    struct caller caller = {event->ship, event->mode, digits, event->count};
    for (size_t i = 0; i < event->count; i++)
        digits[i] = event->symbols[i];
    return caller;
}

#define GIVES_alone
#define GIVES_on_slot event->slot,
#define GIVES_by_hand GIVES_on_slot
#define GIVES_with_symbols heard,
#define GIVES_on_slot_with_symbols event->slot, heard,
#define GIVES_to_ship caller_in(event, digits),

static struct step follow(const struct event *event) {
    static struct room actions;
    struct lent room = {actions.bytes, sizeof actions};
    struct heard heard = {event->symbols, event->count};
    uint32_t digits[MOST_SYMBOLS];
    struct station station = stage.station;
    switch (event->letter) {
#define AS_STEP(letter, entry, takes) \
    case letter: return second_##entry(station, event->time, GIVES_##takes room);
        EVENTS(AS_STEP)
    default: return (struct step){.station = station}; /* no event has another letter */
    }
}

static struct step set_up(const struct event *event) {
    uint32_t channels[MOST_SYMBOLS];
    for (size_t i = 0; i < event->count; i++)
        channels[i] = event->symbols[i];
    return second_set_up(event->slot, channels, event->count);
}

void play(const struct event *event) {
    char text[LINE_MOST + 1u];
    struct station before = stage.station;
    struct step step;
    size_t length = put_text(text, event);
    write_text(text, one_in(64) ? put_zeros(text, length) : length);
    if ((event->letter == SET_UP_LETTER) == stage.stands)
        return; /* 41 */
    step = event->letter == SET_UP_LETTER ? set_up(event) : follow(event);
    if (step.answer == SET_UP_BAD)
        return;
    stage.stands = true;
    stage.station = step.station;
    note_step(&before, event, &step);
}
