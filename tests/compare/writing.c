/* The parts of the comparison that write. */
#include "../c/checked.h"
#include "../second/bytes.h"
#include "compare.h"

#define ROUNDS 260000u /* of four writes by chance */

/* The meanings of P1 to P6, every single byte replaced by each of 256 values; and every size of both from 0 to 40. */
bool write_checked(void) {
    uint8_t meaning[MOST_SYMBOLS] = {0};
    for (size_t which = 0; which < CHECKED_COUNT; which++) {
        if (second_read_bytes(checked[which], CHECKED_LENGTH, meaning, sizeof meaning) != 0u)
            return false;
        for (size_t place = 0; place < MEANING_BYTES; place++) {
            uint8_t kept = meaning[place];
            for (uint32_t value = 0; value < 256u; value++) {
                meaning[place] = (uint8_t)value;
                if (!writes_agree(meaning, MEANING_BYTES, LONGEST))
                    return false;
            }
            meaning[place] = kept;
        }
        for (size_t sizes = 0; sizes < 41u * 41u; sizes++)
            if (!writes_agree(meaning, sizes / 41u, sizes % 41u))
                return false;
    }
    return true;
}

/* A valid meaning with so many fields damaged. */
static bool write_damaged(uint32_t fields, size_t size, size_t room_size) {
    uint8_t meaning[MOST_ROOM];
    for (size_t i = MEANING_BYTES; i < size; i++)
        meaning[i] = any_byte();
    draw_meaning(meaning);
    for (uint32_t i = 0; i < fields; i++)
        damage_meaning(meaning);
    return writes_agree(meaning, size, room_size);
}

bool write_by_chance(void) {
    for (uint32_t i = 0; i < ROUNDS; i++) {
        size_t size = any_size(MEANING_BYTES);
        bool agree = write_damaged(0, MEANING_BYTES, any_size(LONGEST)) && write_damaged(1, MEANING_BYTES, LONGEST) &&
                     write_damaged(2, MEANING_BYTES, any_size(LONGEST)) && write_damaged(i % 2u, size, any_size(LONGEST));
        if (!agree)
            return false;
    }
    return true;
}
