/* What is held against the second implementation: the library, or finders that are wrong on purpose. */
#ifndef FINDER_TRIAL_H
#define FINDER_TRIAL_H

#include <stddef.h>
#include <stdint.h>

struct finder_trial {
    const char *name;
    uint64_t (*find)(const uint8_t *first, size_t first_size, const uint8_t *second, size_t second_size);
};
extern const struct finder_trial *const finder_trials[];
extern const size_t finder_trial_count;

#endif
