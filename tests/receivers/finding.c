/* The parts of the comparison, but for the long ones. */
#include "../c/checked.h"
#include "receivers.h"

#define P1 checked[0]

static bool both_agree(void) {
    return finds_agree(&heard[0], &heard[1]);
}

/* As they are, and each taken for the other. */
static bool either_way_agree(void) {
    return both_agree() && finds_agree(&heard[1], &heard[0]);
}

/* P1 at every place of a second of noise, cut at its end too: in neither, in one and in both. */
bool find_at_each_place(void) {
    for (size_t place = 0; place < ONE_SECOND; place++)
        for (uint32_t who = 0; who < 4u; who++) {
            silence();
            for (size_t r = 0; r < 2u; r++) {
                hear_noise(&heard[r], ONE_SECOND);
                if ((who >> r & 1u) == 1u)
                    hear_at(&heard[r], place, P1, CHECKED_LENGTH);
                cut(&heard[r], 0, heard[r].size - ONE_SECOND);
            }
            if (!both_agree())
                return false;
        }
    return true;
}

/* A valid sequence of each length at every place to 60: with bytes behind it, at the very end, and without its last one. */
bool find_each_length(void) {
    uint8_t symbols[LONGEST];
    for (size_t length = 21; length <= LONGEST; length++)
        for (size_t place = 0; place <= 60u; place++)
            for (size_t behind = 0; behind <= 12u; behind++) {
                silence();
                hear_noise(&heard[0], place);
                hear(&heard[0], symbols, draw_length(symbols, length));
                hear_strays(&heard[1], 60);
                if (behind == 12u)
                    cut(&heard[0], 0, 1);
                else
                    hear_noise(&heard[0], behind);
                if (!either_way_agree())
                    return false;
            }
    return true;
}

/* P1 to P6, each symbol replaced by each of 256 values, the check left and put right; the second receiver hears P1 as often as not. */
bool replace_each_symbol_heard(void) {
    for (size_t which = 0; which < CHECKED_COUNT; which++)
        for (size_t place = 0; place < CHECKED_LENGTH; place++)
            for (uint32_t value = 0; value < 256u; value++) {
                silence();
                hear(&heard[0], checked[which], CHECKED_LENGTH);
                heard[0].bytes[AROUND + place] = (uint8_t)value;
                if (one_in(2))
                    hear(&heard[1], P1, CHECKED_LENGTH);
                if (!both_agree())
                    return false;
                put_check_right(heard[0].bytes + AROUND, CHECKED_LENGTH);
                if (!either_way_agree())
                    return false;
            }
    return true;
}

/* P1 from every symbol on and up to every one, with what was cut around it; the other hears nothing, P2, or P1 cut otherwise. */
bool cut_everywhere(void) {
    for (size_t from = 0; from <= CHECKED_LENGTH; from++)
        for (size_t to = from; to <= CHECKED_LENGTH; to++)
            for (uint32_t other = 0; other < 3u; other++) {
                silence();
                hear(&heard[0], P1, CHECKED_LENGTH);
                cut(&heard[0], from, CHECKED_LENGTH - to);
                if (other > 0u)
                    hear(&heard[1], checked[2u - other], CHECKED_LENGTH);
                if (other == 2u)
                    cut(&heard[1], CHECKED_LENGTH - to, from);
                if (!either_way_agree())
                    return false;
            }
    return true;
}

/* Two sequences of all lengths, the second begun at each distance from the first, over or under it. */
bool find_two_at_each_distance(void) {
    uint8_t one[LONGEST], other[LONGEST];
    for (uint32_t way = 0; way < 8u * 8u * 36u * 4u; way++) {
        size_t count = draw_length(one, 21u + way % 8u), others = draw_length(other, 21u + way / 8u % 8u);
        size_t distance = way / 64u % 36u, place = chance(20);
        if (way >= 2u * 64u * 36u && end_with_format(one, count) && one_in(2))
            distance = count - 1u; /* they share a symbol */
        silence();
        hear_noise(&heard[0], place);
        hear_at(&heard[0], place + distance, other, others);
        hear_at(&heard[0], place, one, count);
        if (way / (64u * 36u) % 2u == 0u)
            hear_at(&heard[0], place + distance, other, others);
        if (!either_way_agree())
            return false;
    }
    return true;
}

/* A sequence with a stray format, or one that is almost whole, at each distance before it; and with that many formats before it. */
bool find_behind_strays(void) {
    static const uint8_t stray[CHECKED_LENGTH] = {/* P1 but for its check */
        123, 0, 20, 1, 23, 40, 100, 20, 0, 56, 78, 90, 101, 126, 126, 126, 126, 105, 5, 55, 12, 34, 117, 0};
    uint8_t symbols[LONGEST];
    for (size_t distance = 1; distance <= 60u; distance++)
        for (uint32_t way = 0; way < 32u; way++) {
            size_t count = draw_length(symbols, 21u + chance(8)), place = chance(30);
            silence();
            hear_noise(&heard[0], place);
            if (way < 8u)
                hear_at(&heard[0], place, stray, 1);
            else if (way < 24u)
                hear_at(&heard[0], place, stray, way < 16u ? CHECKED_LENGTH : 18u);
            else
                for (size_t i = 0; i < distance; i++)
                    hear_one(&heard[0], 123);
            hear_at(&heard[0], place + distance, symbols, count);
            hear_noise(&heard[0], way % 2u * 60u);
            if (!either_way_agree())
                return false;
        }
    return true;
}

/* One in each receiver, at every two places to 40. */
bool find_in_both(void) {
    uint8_t symbols[LONGEST];
    for (size_t place = 0; place <= 40u; place++)
        for (size_t other = 0; other <= 40u; other++) {
            silence();
            hear_noise(&heard[0], place);
            hear(&heard[0], symbols, draw_sequence(symbols));
            hear_noise(&heard[1], other);
            hear(&heard[1], symbols, draw_sequence(symbols));
            if (!both_agree())
                return false;
        }
    return true;
}

/* Each of 256 values, 0 to 64 times; the other hears it any number of times. */
bool repeat_each_byte(void) {
    for (uint32_t value = 0; value < 256u; value++)
        for (size_t size = 0; size <= 64u; size++) {
            silence();
            for (size_t i = 0; i < size; i++)
                hear_one(&heard[0], (uint8_t)value);
            for (uint32_t i = chance(65); i > 0u; i--)
                hear_one(&heard[1], (uint8_t)value);
            if (!either_way_agree())
                return false;
        }
    return true;
}

bool find_by_chance(uint32_t rounds) {
    for (uint32_t round = 0; round < rounds; round++) {
        draw_both();
        if (!finds_agree(&heard[0], &heard[one_in(32) ? 0 : 1]))
            return false;
    }
    return true;
}
