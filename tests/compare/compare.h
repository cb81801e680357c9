/* What the parts of the comparison share. */
#ifndef COMPARE_H
#define COMPARE_H

#include <stdbool.h>
#include <stddef.h>
#include <stdint.h>

#include "trial.h"

#define MEANING_BYTES 32u
#define LONGEST 28u
#define MOST_SYMBOLS 40u /* no sequence longer than this is tried */
#define MOST_ROOM 64u    /* nor a longer room or meaning */
#define MOST_ANSWER 54u

/* ---- tally.c: how often each answer was given ---- */
struct tally {
    uint32_t calls;
    uint32_t answers[MOST_ANSWER + 1u];
};
void count_answer(struct tally *tally, uint32_t returned);
/* Prints it; false where one of the answers wanted was given too seldom. */
bool report(const char *what, const struct tally *tally, const uint8_t *wanted, size_t count);

/* ---- agree.c: one call of each, compared whole; where they differ it prints both and gives false ---- */
extern const struct trial *on_trial;
extern struct tally reads, writes;
bool reads_agree(const uint8_t *symbols, size_t count, size_t size);
bool writes_agree(const uint8_t *meaning, size_t size, size_t room_size);

/* ---- chance.c: numbers by chance, the same ones for the same seed ---- */
void begin_chance(uint64_t seed);
uint32_t chance(uint32_t below);
bool one_in(uint32_t many);
uint8_t any_byte(void);       /* half of them near the edges of document 01's ranges */
uint32_t any_identity(void);  /* the same of identities, of either kind or none */
size_t any_size(size_t need); /* mostly the size needed, else shorter or longer */

/* ---- draw.c: meanings and sequences by chance ---- */
void draw_meaning(uint8_t *meaning);                    /* a valid one */
void damage_meaning(uint8_t *meaning);                  /* another value in one field */
size_t draw_sequence(uint8_t *symbols);                 /* a valid one; hands back its length */
size_t damage_sequence(uint8_t *symbols, size_t count); /* another value in one field; the length may be that field */
void put_check_right(uint8_t *symbols, size_t count);

/* ---- reading.c and writing.c: the parts of the run; false where a difference was found ---- */
bool replace_each_symbol(void);
bool replace_neighbours(void);
bool try_each_length(void);
bool read_by_chance(void);
bool write_checked(void);
bool write_by_chance(void);

#endif
