/* The parts of the comparison that read transmissions. */
#include "../c/checked.h"
#include "../second/transmission.h"
#include "transmissions.h"

#define PHASING_PLACES 14u

static void hear_alone(const uint8_t *symbols, size_t count) {
    heard.count = 0;
    (void)hear(symbols, count);
}

static bool agrees(void) {
    return heard_agrees(READERS_ROOM, one_in(8));
}

/* P1, every single character replaced by each of 1,024 and by some numbers over. */
bool replace_each_character(void) {
    hear_alone(checked[0], CHECKED_LENGTH);
    for (size_t at = 0; at < heard.count; at++) {
        uint16_t kept = heard.characters[at];
        for (uint32_t character = 0; character < 1040u; character++) {
            heard.characters[at] = (uint16_t)character;
            if (!agrees())
                return false;
        }
        heard.characters[at] = kept;
    }
    return true;
}

/* Each of 16,384 ways to lose characters of the phasing. */
bool keep_each_phasing(void) {
    static const uint8_t places[PHASING_PLACES] = {0, 1, 2, 3, 4, 5, 6, 7, 8, 9, 10, 11, 13, 15};
    for (uint32_t kept = 0; kept < 1u << PHASING_PLACES; kept++) {
        hear_alone(checked[kept % CHECKED_COUNT], CHECKED_LENGTH);
        for (size_t i = 0; i < PHASING_PLACES; i++)
            if ((kept >> i & 1u) == 0u)
                heard.characters[places[i]] = any_none();
        if (!agrees())
            return false;
    }
    return true;
}

/* A valid sequence of each length, cut at every character at either end, whole and with one symbol spoiled. */
bool cut_each_length(void) {
    uint8_t symbols[READERS_ROOM];
    for (size_t length = 21; length <= 28u; length++) {
        size_t count = 0;
        while (count != length)
            count = draw_sequence(symbols);
        for (size_t beginning = 0; beginning < 20u; beginning++)
            for (size_t end = 0; end <= 74u; end++) {
                size_t spoiled = 14u + chance(60);
                hear_alone(symbols, count);
                if (one_in(2) && spoiled < heard.count)
                    heard.characters[spoiled] = any_none();
                cut(beginning, end);
                if (!agrees())
                    return false;
            }
    }
    return true;
}

/* P2 with every two of its characters spoiled, whole and cut somewhere behind the first. */
bool spoil_each_two(void) {
    for (size_t first = 0; first < 66u; first++)
        for (size_t second = first; second < 66u; second++) {
            hear_alone(checked[1], CHECKED_LENGTH);
            heard.characters[first] = any_none();
            heard.characters[second] = any_none();
            if (!agrees())
                return false;
            cut(0, chance((uint32_t)(66u - first)));
            if (!agrees())
                return false;
        }
    return true;
}

/* 28 symbols with an end at every two places, each in turn good, with a bad first copy, with a bad repeat, or unreadable. */
bool end_at_each_place(void) {
    static const uint8_t ends[] = {117, 122, 127, 116, 118, 121, 123, 126};
    uint8_t symbols[READERS_ROOM];
    for (uint32_t way = 0; way < 28u * 28u * 8u * 4u; way++) {
        size_t first = way % 28u, second = way / 28u % 28u;
        uint32_t bad = way / (28u * 28u * 8u);
        for (size_t i = 0; i < READERS_ROOM; i++)
            symbols[i] = (uint8_t)chance(100);
        symbols[first] = symbols[second] = ends[way / (28u * 28u) % 8u];
        hear_alone(symbols, READERS_ROOM);
        if (bad % 2u == 1u)
            heard.characters[14u + 2u * first] = any_none();
        if (bad >= 2u)
            heard.characters[19u + 2u * first] = any_none();
        if (!agrees())
            return false;
    }
    return true;
}

/* Every room from 0 to 64 bytes, with and without a single byte behind, for every answer. */
bool try_each_room(void) {
    for (size_t room_size = 0; room_size <= 64u; room_size++)
        for (uint32_t i = 0; i < 40u; i++) {
            draw_heard();
            if (!heard_agrees(room_size, false) || !heard_agrees(room_size, true))
                return false;
        }
    return true;
}

bool read_transmissions(uint32_t rounds) {
    for (uint32_t round = 0; round < rounds; round++) {
        draw_heard();
        if (!heard_agrees(any_room(READERS_ROOM), one_in(4)))
            return false;
    }
    return true;
}

/* Characters that were never a transmission, and bytes that were never characters. */
bool read_strays(uint32_t rounds) {
    uint8_t bytes[2u * MOST_HEARD + 1u];
    for (uint32_t round = 0; round < rounds; round++) {
        heard.count = 0;
        hear_strays(one_in(4) ? 20u : 160u);
        size_t size = chance(200);
        for (size_t i = 0; i < size; i++)
            bytes[i] = any_byte();
        if (!heard_agrees(any_room(READERS_ROOM), one_in(4)) || !transmission_reads_agree(bytes, size, any_room(READERS_ROOM)))
            return false;
    }
    return true;
}

/* Only what is returned and the room: an area would be too big. */
static bool long_ones_agree(const uint8_t *bytes, size_t size) {
    uint8_t trial[READERS_ROOM] = {0}, second[READERS_ROOM] = {0};
    uint32_t returned = second_read_transmission(bytes, size, second, sizeof second);
    bool agree = air_trial->read(bytes, size, trial, sizeof trial) == returned;
    for (size_t i = 0; i < READERS_ROOM; i++)
        agree = agree && trial[i] == second[i];
    count_answer(&read_calls, returned);
    return agree;
}

/* More characters than two bytes can count: none of a transmission, then one at either side of the 65,536th. */
bool read_long_ones(void) {
    static uint8_t bytes[2u * 66000u];
    for (size_t at = 65440; at <= 65560u; at += 20u) {
        for (size_t i = 0; i < sizeof bytes; i++)
            bytes[i] = any_byte();
        if (at > 65440u)
            (void)second_write_transmission(checked[0], CHECKED_LENGTH, bytes + 2u * at, WRITERS_ROOM);
        if (!long_ones_agree(bytes, sizeof bytes))
            return false;
    }
    return true;
}
