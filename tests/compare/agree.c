/* One call of the trial and one of the second implementation, on the same bytes, compared whole. */
#include "../second/bytes.h"
#include "compare.h"

#define AREA_BYTES MOST_ROOM
#include "sides.h"

const struct trial *on_trial;
struct tally reads, writes;

bool reads_agree(const uint8_t *symbols, size_t count, size_t size) {
    struct side trial, second;
    struct area before;
    bool null = one_in(2);
    fill(&before, (uint8_t)chance(256));
    hand_in(&trial, symbols, count, 129, &before);
    hand_in(&second, symbols, count, 46, &before);
    trial.returned = on_trial->read(lent(&trial.in, count, null), count, lent(&trial.out, size, null), size);
    second.returned = second_read_bytes(lent(&second.in, count, null), count, lent(&second.out, size, null), size);
    count_answer(&reads, second.returned);
    if (sides_agree(&trial, &second, &before, second.returned == 0u ? MEANING_BYTES : 0u))
        return true;
    print_difference("readers", &trial, &second, &before);
    print_bytes("symbols", symbols, count);
    printf("  bytes for the meaning: %u\n", (unsigned)size);
    return false;
}

bool writes_agree(const uint8_t *meaning, size_t size, size_t room_size) {
    struct side trial, second;
    struct area before;
    bool null = one_in(2);
    fill(&before, (uint8_t)chance(256));
    hand_in(&trial, meaning, size, 129, &before);
    hand_in(&second, meaning, size, 46, &before);
    trial.returned = on_trial->write(lent(&trial.in, size, null), size, lent(&trial.out, room_size, null), room_size);
    second.returned = second_write_bytes(lent(&second.in, size, null), size, lent(&second.out, room_size, null), room_size);
    count_answer(&writes, second.returned);
    if (sides_agree(&trial, &second, &before, second.returned >> 8))
        return true;
    print_difference("writers", &trial, &second, &before);
    print_bytes("meaning", meaning, size);
    printf("  room: %u\n", (unsigned)room_size);
    return false;
}
