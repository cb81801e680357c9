/* What is held against the second implementation: the library, or writers and readers that are wrong on purpose. */
#ifndef AIR_TRIAL_H
#define AIR_TRIAL_H

#include <stddef.h>
#include <stdint.h>

struct air_trial {
    const char *name;
    uint32_t (*write_character)(uint32_t symbol);
    uint32_t (*read_character)(uint32_t character);
    uint32_t (*write)(const uint8_t *symbols, size_t count, uint8_t *room, size_t room_size);
    uint32_t (*read)(const uint8_t *characters, size_t size, uint8_t *room, size_t room_size);
};
extern const struct air_trial *const air_trials[];
extern const size_t air_trial_count;

#endif
