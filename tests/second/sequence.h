/* Reader and writer of one sequence (01, "One sequence, 21 to 28 symbols"). */
#ifndef SECOND_SEQUENCE_H
#define SECOND_SEQUENCE_H

#include <stdbool.h>
#include <stddef.h>
#include <stdint.h>

/* First telecommands. */
#define SIMPLEX 100u
#define DUPLEX 101u
#define UNABLE 104u
#define END_OF_CALL 105u
#define DATA 106u

/* Ends of sequence. */
#define RQ 117u
#define BQ 122u
#define OTHER_END 127u

/* "no information": second telecommand, and each place of an empty field. */
#define NO_INFORMATION 126u

#define LONGEST_SEQUENCE 28u
#define SHORTEST_SEQUENCE 21u
#define MOST_DIGITS 16u

enum field_kind { FIELD_NONE, FIELD_CHANNEL, FIELD_DURATION };

/* What a sequence means. Parts that the kind of field does not use are 0,
 * and so are the digits from count on. */
struct meaning {
    uint32_t address, self;
    uint8_t first, second;
    enum field_kind kind;
    uint8_t channel, hours, minutes, seconds;
    uint8_t count;
    uint8_t digits[MOST_DIGITS];
    uint8_t end;
};

/* "Ships: 200000000 to 799999999." */
bool second_is_ship(uint32_t identity);

/* "Coast stations: 002000000 to 007999999." */
bool second_is_coast(uint32_t identity);

/* "the channel 1 to 28 or 60 to 88 but not 16 or 70" */
bool second_is_channel(uint32_t channel);

/* "hours 0 to 99, minutes and seconds 0 to 59" */
bool second_is_duration(uint8_t hours, uint8_t minutes, uint8_t seconds);

/* 0, or the first of 15, 17, 18, 19, 20 that the meaning deserves. */
int second_judge(const struct meaning *m);

/* 0 or 11 to 20; *m is written only for 0. */
int second_read(const uint8_t *symbols, size_t n, struct meaning *m);

/* 0, or 21 first, then 15, 17, 18, 19, 20; a refusal touches nothing. */
int second_write(const struct meaning *m, uint8_t *room, size_t room_len, size_t *written);

#endif
