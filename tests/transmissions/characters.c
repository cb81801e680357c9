/* The part of the comparison that reads and writes single characters. */
#include "../second/transmission.h"
#include "transmissions.h"

/* Every number of two bytes and more; each symbol and each symbol's character with a higher bit set; and any numbers. */
bool try_each_number(void) {
    for (uint32_t number = 0; number < 140000u; number++)
        if (!characters_agree(number))
            return false;
    for (uint32_t symbol = 0; symbol < 128u; symbol++)
        for (uint32_t bit = 7; bit < 32u; bit++)
            if (!characters_agree(symbol | 1u << bit) || !characters_agree(second_write_character(symbol) | 1u << bit))
                return false;
    for (uint32_t i = 0; i < 100000u; i++)
        if (!characters_agree(chance(one_in(2) ? 1024u : UINT32_MAX)))
            return false;
    return characters_agree(UINT32_MAX);
}
