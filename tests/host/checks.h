/* What the parts of the host that checks the library share. */
#ifndef CHECKS_H
#define CHECKS_H

#include <stdbool.h>
#include <stddef.h>
#include <stdint.h>

/* Each counts one check, and prints where it fails. */
void want(const char *what, uint32_t got, uint32_t wanted);
void want_true(const char *what, bool got);

/* Prints the counts; false where a check failed. */
bool all_as_wanted(void);

bool equal(const uint8_t *a, const uint8_t *b, size_t count);
void copy(uint8_t *to, const uint8_t *from, size_t count);

/* ---- stations.c: the station's entries ---- */
void try_stations(void);

/* ---- air.c: characters and transmissions ---- */
void try_the_air(void);

/* ---- mast.c: two receivers ---- */
void try_the_mast(void);

#endif
