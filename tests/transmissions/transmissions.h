/* What the parts of the comparison of transmissions share. */
#ifndef TRANSMISSIONS_H
#define TRANSMISSIONS_H

#include "../compare/compare.h"
#include "trial.h"

#define MOST_HEARD 250u /* no more characters than this are handed in, but for the long ones */
#define WRITERS_ROOM 148u
#define READERS_ROOM 28u
#define MOST_LIST 40u /* no longer list of symbols is written */

/* ---- agree.c: one call of each, compared whole; where they differ it prints both and gives false ---- */
extern const struct air_trial *air_trial;
extern struct tally read_calls, write_calls, character_calls; /* of characters the answers are 0 for one, 1 for none */
bool characters_agree(uint32_t number);                       /* read as a character, and written as a symbol */
bool transmission_reads_agree(const uint8_t *bytes, size_t size, size_t room_size);
bool transmission_writes_agree(const uint8_t *symbols, size_t count, size_t room_size);

/* ---- heard.c: characters as a modem hands them over, whole and spoiled ---- */
struct heard {
    size_t count;
    uint16_t characters[MOST_HEARD];
};
extern struct heard heard;
size_t any_room(size_t need);
size_t draw_list(uint8_t *symbols); /* 21 to 28 symbols: a valid sequence, or any that look like phasing or like ends */
uint16_t any_stray(void);           /* a character that belongs to nothing */
uint16_t any_none(void);            /* a number that is no symbol's */
size_t hear(const uint8_t *symbols, size_t count); /* behind what is there; gives where it starts */
void hear_strays(uint32_t most);
void draw_heard(void);                  /* one transmission or two, damaged, cut, with strays around */
void cut(size_t beginning, size_t end); /* so many characters at either end */
bool heard_agrees(size_t room_size, bool odd);

/* ---- characters.c, reading.c, writing.c: the parts of the run; false where a difference was found ---- */
bool try_each_number(void);
bool replace_each_character(void);
bool keep_each_phasing(void);
bool cut_each_length(void);
bool spoil_each_two(void);
bool end_at_each_place(void);
bool try_each_room(void);
bool read_transmissions(uint32_t rounds);
bool read_strays(uint32_t rounds);
bool read_long_ones(void);
bool write_each_length(void);
bool write_each_symbol(void);
bool write_lists(uint32_t rounds);

#endif
