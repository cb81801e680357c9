/* The parts of the comparison that write transmissions. */
#include "../c/checked.h"
#include "transmissions.h"

/* Every length from 0 to 40 in every room from 0 to 200 bytes. */
bool write_each_length(void) {
    uint8_t symbols[MOST_LIST];
    for (size_t count = 0; count <= MOST_LIST; count++)
        for (size_t room_size = 0; room_size <= 200u; room_size++) {
            for (size_t i = 0; i < count; i++)
                symbols[i] = (uint8_t)chance(128);
            if (!transmission_writes_agree(symbols, count, room_size))
                return false;
        }
    return true;
}

/* P1 to P6, each symbol replaced by each of 256 values. */
bool write_each_symbol(void) {
    uint8_t symbols[CHECKED_LENGTH];
    for (size_t which = 0; which < CHECKED_COUNT; which++)
        for (size_t place = 0; place < CHECKED_LENGTH; place++)
            for (uint32_t value = 0; value < 256u; value++) {
                for (size_t i = 0; i < CHECKED_LENGTH; i++)
                    symbols[i] = i == place ? (uint8_t)value : checked[which][i];
                if (!transmission_writes_agree(symbols, CHECKED_LENGTH, WRITERS_ROOM))
                    return false;
            }
    return true;
}

/* A list that could be sent; or of another length, or with symbols over 127, or both. */
bool write_lists(uint32_t rounds) {
    uint8_t symbols[MOST_LIST];
    for (uint32_t round = 0; round < rounds; round++) {
        size_t count = draw_list(symbols);
        if (one_in(4)) {
            for (size_t i = count; i < MOST_LIST; i++)
                symbols[i] = any_byte();
            count = one_in(2) ? 19u + chance(11) : chance(MOST_LIST + 1u);
        }
        if (count > 0u && one_in(4))
            symbols[chance((uint32_t)count)] |= 128u;
        if (!transmission_writes_agree(symbols, count, any_room(WRITERS_ROOM)))
            return false;
    }
    return true;
}
