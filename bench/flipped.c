/* Bit noise on the bytes of characters. */
#include "bench.h"
#include "../tests/compare/compare.h"

#define UNITS 10u /* of a character, which is two bytes */

void flip_units(uint8_t *bytes, size_t size, uint32_t of_a_thousand) {
    for (size_t i = 0; i < size; i += 2u)
        for (uint32_t unit = 0; unit < UNITS; unit++)
            if (chance(1000) < of_a_thousand)
                bytes[i + unit / 8u] ^= (uint8_t)(1u << unit % 8u);
}
