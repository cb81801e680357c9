/* The second implementation's entries, under the name that ENTRIES gives them. */
#include "../second/lent.h"

#ifndef ENTRIES
#define ENTRIES second
#endif
#define TEXT(name) #name
#define NAME_OF(name) TEXT(name)

#define OF_SECOND(letter, entry, takes) second_##entry##_bytes,
extern const struct entries ENTRIES;
const struct entries ENTRIES = {NAME_OF(ENTRIES), EVERY_ENTRY(OF_SECOND)};
