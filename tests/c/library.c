/* The proved library's entries, through its header, which the compiler refuses where one has another type. They are on trial
 * where the second implementation judges. */
#include "../../include/coast.h"
#include "entries.h"

#define OF_LIBRARY(letter, entry, takes) coast_##entry,
const struct entries library = {"library", EVERY_ENTRY(OF_LIBRARY)};

const struct entries *const tried[] = {&library};
const size_t tried_count = 1;
