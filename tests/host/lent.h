/* Bytes to lend to the library, with memory on both sides of them that nobody may touch. */
#ifndef LENT_H
#define LENT_H

#include <stdbool.h>
#include <stddef.h>
#include <stdint.h>

enum lent_for { FOR_SYMBOLS, FOR_MEANING, FOR_ROOM, FOR_ACTIONS, FOR_STATION, LENT_USES };

/* Sets the memory up; false where the machine refuses. */
bool set_up_lent(void);

/* So many bytes, all with the filling's value: at the front of the memory for this use, or at its end. At most 128, for
 * actions 512, for a station 2048. */
uint8_t *lend(enum lent_for what, size_t size, bool at_end, uint8_t filling);

/* Whether the bytes lent from `from` on, and those beside them, still have the filling's value. */
bool left_alone(enum lent_for what, const uint8_t *bytes, size_t from, uint8_t filling);

#endif
