/* What is held against the second implementation: the library, or readers and writers that are wrong on purpose. */
#ifndef TRIAL_H
#define TRIAL_H

#include <stddef.h>
#include <stdint.h>

struct trial {
    const char *name;
    uint32_t (*read)(const uint8_t *symbols, size_t count, uint8_t *meaning, size_t size);
    uint32_t (*write)(const uint8_t *meaning, size_t size, uint8_t *room, size_t room_size);
};
extern const struct trial *const trials[];
extern const size_t trial_count;

#endif
