/* What the parts of the comparison of finders share. */
#ifndef RECEIVERS_H
#define RECEIVERS_H

#include "../compare/compare.h"
#include "trial.h"

#define MOST_HEARD 256u /* no more bytes than this are handed in of one receiver, but for the long ones */
#define AROUND 32u      /* so many stand on either side of them, more than a sequence is long */
#define ONE_SECOND 120u /* bytes */

/* One receiver's bytes: `size` of them from `from` on are handed in, the others stand around them. */
struct heard {
    size_t from, size;
    uint8_t bytes[AROUND + MOST_HEARD + AROUND];
};

/* ---- agree.c: the finders' calls compared whole; where they differ it prints both and gives false ---- */
extern const struct finder_trial *finder_trial;
extern struct tally searches, lengths; /* 0 in the first, 1 in the second, 54 none; and the lengths of what was found */
void count_search(uint64_t found);
bool finds_agree(const struct heard *first, const struct heard *second); /* of the same for both, the same bytes are handed in */

/* ---- heard.c: bytes as a receiver hands them over, piece by piece ---- */
extern struct heard heard[2];
void silence(void); /* of both */
void hear_one(struct heard *one, uint8_t byte);
void hear(struct heard *one, const uint8_t *symbols, size_t count);
void hear_at(struct heard *one, size_t place, const uint8_t *symbols, size_t count); /* over what is there */
void hear_noise(struct heard *one, size_t size);
void hear_strays(struct heard *one, uint32_t most);
void cut(struct heard *one, size_t beginning, size_t end); /* these are no more handed in, but stand around what is */
size_t draw_length(uint8_t *symbols, size_t length);       /* a valid sequence of this length */
bool end_with_format(uint8_t *symbols, size_t count);      /* makes its check 123 by another pair; false where none will do */

/* ---- draw_heard.c: what both receivers heard, by chance ---- */
void draw_both(void);

/* ---- finding.c, long.c: the parts of the run; false where a difference was found ---- */
bool find_at_each_place(void);
bool find_each_length(void);
bool replace_each_symbol_heard(void);
bool cut_everywhere(void);
bool find_two_at_each_distance(void);
bool find_behind_strays(void);
bool find_in_both(void);
bool repeat_each_byte(void);
bool find_by_chance(uint32_t rounds);
bool find_in_long_ones(void);

#endif
