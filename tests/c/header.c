/* Uses all of include/coast.h and of coast_words.h, twice included, in words that are C11 and C++17 alike: what tests/header
 * compiles. It writes computed.h, the sizes, places and version that the definitions come to. The types of the station's entries
 * are held by library.c. */
#include "coast.h"
#include "coast_words.h"
#include "coast.h"
#include "coast_words.h"
#include "computed.h"

#if COAST_SHORTEST_SEQUENCE != 21 || COAST_LONGEST_SEQUENCE != 28 || COAST_MEANING_SIZE != MEANING_SIZE || \
    COAST_STATION_SIZE != STATION_SIZE || COAST_ONE_ACTION_SIZE != 40
#error "a size is wrong"
#endif
#if COAST_LAYOUT_VERSION != LAYOUT_VERSION || COAST_AT_VERSION != VERSION || COAST_AT_VERSION != 0
#error "the layout's version, or its place, is wrong"
#endif
#if COAST_NO_SYMBOL != 128 || COAST_NO_CHARACTER != 1024 || COAST_CHARACTER_SIZE != 2 || COAST_SHORTEST_TRANSMISSION != 60 || \
    COAST_LONGEST_TRANSMISSION != 74 || COAST_TRANSMISSION_SIZE != 148
#error "a figure of a character or of a transmission is wrong"
#endif
#if COAST_AT_ADDRESS != ADDRESS || COAST_AT_SENDER != SENDER || COAST_AT_FIRST != FIRST || COAST_AT_SECOND != SECOND || \
    COAST_AT_FIELD_KIND != FIELD_KIND || COAST_AT_FIELD != FIELD || COAST_AT_DIGIT_COUNT != DIGIT_COUNT ||              \
    COAST_AT_END != END || COAST_AT_DIGITS != DIGITS
#error "a place in the meaning is wrong"
#endif
#if COAST_LAST_TIME != 4000000000u
#error "the limit of time is wrong"
#endif
#if COAST_FIELD_BLANK != 0 || COAST_FIELD_CHANNEL != 1 || COAST_FIELD_DURATION != 2
#error "a kind of field is wrong"
#endif
#if COAST_ANSWER_DONE != 0 || COAST_ANSWER_BAD_LENGTH != 11 || COAST_ANSWER_BAD_SYMBOL != 12 || COAST_ANSWER_BAD_CHECK != 13 ||  \
    COAST_ANSWER_BAD_FORMAT != 14 || COAST_ANSWER_BAD_IDENTITIES != 15 || COAST_ANSWER_BAD_CATEGORY != 16 ||                     \
    COAST_ANSWER_BAD_TELECOMMANDS != 17 || COAST_ANSWER_BAD_CHANNEL_FIELD != 18 || COAST_ANSWER_BAD_NUMBER != 19 ||              \
    COAST_ANSWER_BAD_END != 20 || COAST_ANSWER_ROOM_SHORT != 21 || COAST_ANSWER_MEANING_SHORT != 22 ||                           \
    COAST_ANSWER_WRONG_SIZE != 23 || COAST_ANSWER_IGNORED != 1 || COAST_ANSWER_NOT_SOUND != 29 ||                                \
    COAST_ANSWER_ACTIONS_SHORT != 30 || COAST_ANSWER_TIME_TOO_LATE != 31 || COAST_ANSWER_TIME_BEFORE_CLOCK != 32 ||              \
    COAST_ANSWER_WAIT_DUE != 33 || COAST_ANSWER_NO_SLOT != 34 || COAST_ANSWER_OPERATOR != 35 || COAST_ANSWER_BAD_SET_UP != 36 || \
    COAST_ANSWER_NO_FREE_SLOT != 37 || COAST_ANSWER_SHIP_ENGAGED != 38 || COAST_ANSWER_NO_PHASING != 51 ||                       \
    COAST_ANSWER_COPIES_BAD != 52 || COAST_ANSWER_ENDS_EARLY != 53 || COAST_ANSWER_NO_SEQUENCE != 54
#error "an answer is wrong"
#endif
#if COAST_AT_ACTION_KIND != 0 || COAST_AT_ACTION_SLOT != 1 || COAST_AT_ACTION_LENGTH != 2 || COAST_AT_ACTION_PAYLOAD != 4
#error "a place in an action is wrong"
#endif
#if COAST_ACTION_CARRIER_ON != 1 || COAST_ACTION_CARRIER_OFF != 2 || COAST_ACTION_SEND_CHANNEL_70 != 3 ||                     \
    COAST_ACTION_SEND_WORKING != 4 || COAST_ACTION_DIAL != 5 || COAST_ACTION_RELEASE_LINE != 6 || COAST_ACTION_CHARGE != 7 || \
    COAST_ACTION_RINGING_ON != 8 || COAST_ACTION_RINGING_OFF != 9 || COAST_ACTION_BUSY_TONE != 10
#error "a kind of action is wrong"
#endif

struct others {
    uint32_t (*reads)(const uint8_t *symbols, size_t count, uint8_t *meaning, size_t size);
    uint32_t (*writes)(const uint8_t *meaning, size_t size, uint8_t *room, size_t room_size);
    uint64_t (*finds)(const uint8_t *first, size_t first_size, const uint8_t *second, size_t second_size);
    uint32_t (*of_character[2])(uint32_t number);
    uint32_t (*of_transmission[2])(const uint8_t *given, size_t size, uint8_t *room, size_t room_size);
    uint32_t (*answer[2])(uint64_t returned);
    size_t (*count[3])(uint64_t returned);
    int (*which[2])(uint64_t returned);
    uint32_t (*due)(uint64_t returned);
    uint32_t (*time)(uint64_t returned);
    uint32_t (*number_at)(const uint8_t *bytes);
    void (*put_number)(uint8_t *bytes, uint32_t number);
    uint32_t (*character_at)(const uint8_t *characters, size_t place);
    void (*put_character)(uint8_t *characters, size_t place, uint32_t character);
    const uint8_t *(*action_at)(const uint8_t *room, size_t place);
    uint32_t (*of_action[7])(const uint8_t *action);
    size_t (*length)(const uint8_t *action);
    const uint8_t *(*payload)(const uint8_t *action);
    char *(*text)(const uint8_t *digits, size_t count, char *text);
    char *(*dialled)(const uint8_t *action, char *text);
    const char *(*words[6])(uint32_t number);
};

/* Refused by the compiler where one has another type. */
extern const struct others others;
const struct others others = {coast_read_sequence, coast_write_sequence, coast_find_sequence,
    {coast_write_character, coast_read_character}, {coast_write_transmission, coast_read_transmission},
    {coast_answer, coast_found_answer}, {coast_count, coast_found_length, coast_found_place}, {coast_waits, coast_found_receiver},
    coast_due, coast_time, coast_number_at, coast_put_number, coast_character_at, coast_put_character, coast_action_at,
    {coast_action_kind, coast_action_slot, coast_charge_ship, coast_charge_start, coast_charge_stop, coast_charge_seconds,
        coast_charge_call},
    coast_payload_length, coast_payload, coast_digits_text, coast_dialled,
    {coast_answer_words, coast_action_words, coast_telecommand_words, coast_reason_words, coast_end_words, coast_phase_words}};

int main(void) {
    uint8_t meaning[COAST_MEANING_SIZE] = {0}, room[COAST_LONGEST_SEQUENCE] = {0};
    uint32_t read = coast_read_sequence(room, sizeof room, meaning, sizeof meaning);
    uint32_t written = coast_write_sequence(meaning, sizeof meaning, room, sizeof room);
    size_t count = coast_count(written);
    return read == COAST_ANSWER_DONE && coast_answer(written) == COAST_ANSWER_DONE && count >= COAST_SHORTEST_SEQUENCE ? 0 : 1;
}
