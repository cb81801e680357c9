/* What the parts of the comparison of stations share. The generator of rehearsals draws the events: its stage holds the
 * station that they are drawn for, which is always a sound one. */
#ifndef STATIONS_H
#define STATIONS_H

#include "../rehearsal/rehearsal.h"
#include "../second/layout.h"
#include "../c/entries.h"

/* ---- laid.c ---- */
size_t slot_begins(uint32_t slot);
size_t waiting_begins(uint32_t place);
size_t station_ends(void);
void put_number(uint8_t *bytes, uint32_t number, size_t width);
uint32_t number_at(const uint8_t *bytes, size_t width);

/* ---- drawn.c: sound stations that no run need reach, on the stage ---- */
void draw_any_station(void);
void begin_station(void); /* no slots and ships yet: these are drawn for its clock, and call it */
void fill_station(uint32_t slots, uint32_t waiting);
void fill_as_usual(void);
void draw_slot(uint32_t slot, enum phase phase);
enum phase draw_phase(bool (*wanted)(enum phase));
void draw_idle(void); /* no ship stands in the station, or waits */
void draw_waiting(uint32_t place);

/* ---- moved.c: a sound station with one field moved to an edge of its rule ---- */
void draw_moved(uint8_t *bytes);
const char *field_moved(void);          /* of the one drawn last */
void tell_head(const uint8_t *bytes);   /* the station's own fields, before its slots */
void note_moved(bool sound);            /* what it turned out to be */
bool each_field_moved(uint32_t enough); /* whether each field was both inside and outside its rule so often */

/* ---- events.c ---- */
struct event draw_event(void); /* one that fits the stage, or nearly */
struct event draw_set_up(void);
size_t any_room_size(void);

/* ---- agree.c: one call of each, compared whole; where they differ it prints both and gives false ---- */
#define MOST_STATION_SIZE 1800u
#define MOST_ROOM_SIZE 400u
struct call {
    const struct event *event;
    const uint8_t *station;
    size_t size, room_size;
};
extern const struct entries *judged;
void begin_noise(void);
const uint8_t *noise(size_t length); /* so many bytes by chance */
bool calls_agree(const struct call *call, uint64_t *returned);

/* ---- tell.c ---- */
struct outcome {
    const char *who;
    uint64_t returned;
    const uint8_t *station, *room;
};
void tell_call(const struct call *call);
void tell_outcomes(const struct call *call, const struct outcome *a, const struct outcome *b);

/* ---- tally.c ---- */
void begin_tally(void);
void note_call(char letter, uint64_t returned, const uint8_t *room);
void note_drawn(void);              /* the sound station on the stage */
void note_sound(uint64_t returned); /* an event on it */
bool tell_tally(uint32_t stations); /* prints it; false where something was hardly tried */

#endif
