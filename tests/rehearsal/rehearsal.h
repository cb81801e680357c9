/* What the parts of the generator of scripts share. It links the second station and looks at it, so that its ships know
 * where they stand; what it believes decides only how deep a script goes, never what is right. */
#ifndef REHEARSAL_H
#define REHEARSAL_H

#include "../c/entries.h"
#include "../compare/compare.h"
#include "../second/inside.h"

#define MOST_SHIPS 64u
#define LINE_MOST 200u

/* One line of a script, readable. For S the slot is the identity and the symbols are the channels; for C the symbols are the
 * digits. */
struct event {
    char letter;
    uint32_t time, slot, ship, mode;
    size_t count;
    uint8_t symbols[MOST_SYMBOLS];
};

/* The kinds of move; a mood gives each its weight. */
enum move { CALL, AGAIN, ANSWER, EXCHANGE, LINE, CARRIER, END, TIME, HAND, STRAY, LEAP, NOISE, ASHORE, MOVES };

struct mood {
    const char *name;
    uint32_t most_channels, least_ships, most_ships, lines;
    uint8_t weights[MOVES];
    uint32_t spoilt; /* one event in this many is spoilt */
    bool late;       /* the clock begins near the limit */
};

/* The station under way, and who takes part. */
struct stage {
    struct station station;
    bool stands;
    uint32_t lines_left;
    uint32_t ships[MOST_SHIPS], ship_count;
};
extern struct stage stage;

/* ---- play.c: a line is written and followed ---- */
void play(const struct event *event);
void write_text(const char *text, size_t length);       /* a line that changes nothing */
size_t put_text(char *text, const struct event *event); /* at most LINE_MOST characters */
void end_script(void);

/* ---- unreadable.c: lines that get 40; odd.c: readable lines that no station accepts ---- */
void play_unreadable(const struct event *like);
void play_odd(void);

/* ---- opening.c: the S line, and lines before it ---- */
void open_station(const struct mood *mood);
void play_set_up(void); /* an S, good or bad, wherever it stands */

/* ---- times.c ---- */
bool next_due(uint32_t *due);
uint32_t soon(uint32_t wait, uint32_t slot); /* a time for an event that begins this wait, on that slot if on any */
uint32_t leap(void);                         /* a time far off */
void catch_up(uint32_t time);                /* ticks, exact or late, until nothing is due at that time */
uint32_t wrong_time(void);                   /* before the clock, a tenth late, or over the limit */

/* ---- sequences.c: what ships send ---- */
uint32_t any_coast(void);
struct meaning new_request(uint32_t ship);
struct meaning varied(struct meaning request); /* another number, mode or second telecommand */
struct meaning as_working_call(struct meaning request);
struct meaning as_ring_back_answer(struct meaning request, uint8_t channel);
struct meaning as_end(struct meaning request);
struct meaning as_unable(struct meaning request);
struct meaning mistaken(struct meaning m); /* valid, but not what is wanted there */
void put_sequence(struct event *event, const struct meaning *m);
void put_stray(struct event *event); /* any valid sequence, or one overheard */
void spoil_sequence(struct event *event);

/* ---- ashore.c: calls from shore to ship; each fills in the event, and hands back the wait that it begins ---- */
void put_caller(struct event *event, uint32_t ship); /* who wants that ship, and no time yet */
void spoil_caller(struct event *event);
uint32_t call_from_ashore(struct event *event);
uint32_t answer_caller(struct event *event, uint32_t slot); /* what the ship that is called on that slot does, or was */

/* ---- moves.c ---- */
void make_move(const struct mood *mood);
void pass_time(uint32_t time); /* a tick at that time */

/* ---- situations.c: what was reached ---- */
void note_step(const struct station *before, const struct event *event, const struct step *step);
void print_situations(void);

#endif
