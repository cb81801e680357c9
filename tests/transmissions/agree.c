/* One call of the trial and one of the second implementation, on the same bytes, compared whole. */
#include "../second/transmission.h"
#include "transmissions.h"

#define AREA_BYTES 512u /* of 250 characters and a single byte */
#include "../compare/sides.h"

const struct air_trial *air_trial;
struct tally read_calls, write_calls, character_calls;

bool characters_agree(uint32_t number) {
    uint32_t symbol = second_read_character(number), character = second_write_character(number);
    uint32_t its_symbol = air_trial->read_character(number), its_character = air_trial->write_character(number);
    count_answer(&character_calls, symbol == NO_SYMBOL);
    count_answer(&character_calls, character == NO_CHARACTER);
    if (its_symbol == symbol && its_character == character)
        return true;
    printf("compare: the characters differ\n  number %u; on trial: symbol %u, character %u; second: symbol %u, character %u\n",
        (unsigned)number, (unsigned)its_symbol, (unsigned)its_character, (unsigned)symbol, (unsigned)character);
    return false;
}

bool transmission_reads_agree(const uint8_t *bytes, size_t size, size_t room_size) {
    struct side trial, second;
    struct area before;
    bool null = one_in(2);
    fill(&before, (uint8_t)chance(256));
    hand_in(&trial, bytes, size, 129, &before);
    hand_in(&second, bytes, size, 46, &before);
    trial.returned = air_trial->read(lent(&trial.in, size, null), size, lent(&trial.out, room_size, null), room_size);
    second.returned = second_read_transmission(lent(&second.in, size, null), size, lent(&second.out, room_size, null), room_size);
    count_answer(&read_calls, second.returned);
    if (sides_agree(&trial, &second, &before, second.returned >> 8))
        return true;
    print_difference("readers", &trial, &second, &before);
    print_bytes("bytes of characters", bytes, size);
    printf("  room: %u\n", (unsigned)room_size);
    return false;
}

bool transmission_writes_agree(const uint8_t *symbols, size_t count, size_t room_size) {
    struct side trial, second;
    struct area before;
    bool null = one_in(2);
    fill(&before, (uint8_t)chance(256));
    hand_in(&trial, symbols, count, 129, &before);
    hand_in(&second, symbols, count, 46, &before);
    trial.returned = air_trial->write(lent(&trial.in, count, null), count, lent(&trial.out, room_size, null), room_size);
    second.returned =
        second_write_transmission(lent(&second.in, count, null), count, lent(&second.out, room_size, null), room_size);
    count_answer(&write_calls, second.returned);
    if (sides_agree(&trial, &second, &before, CHARACTER_BYTES * (second.returned >> 8)))
        return true;
    print_difference("writers", &trial, &second, &before);
    print_bytes("symbols", symbols, count);
    printf("  room: %u\n", (unsigned)room_size);
    return false;
}
