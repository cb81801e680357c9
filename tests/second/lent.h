/* The second implementation's station on lent bytes, with the very calls of include/coast.h. */
#ifndef SECOND_LENT_H
#define SECOND_LENT_H

#include "../c/entries.h"

#define AS_FUNCTION(letter, entry, takes) takes##_entry second_##entry##_bytes;
EVERY_ENTRY(AS_FUNCTION)
#undef AS_FUNCTION

#endif
