/* Small helpers over coast.h, for a host in C or C++: numbers in lent bytes, an action taken apart, and the library's numbers in
 * words. Each is a line or two of C; what is right or wrong the library alone decides. */
#ifndef COAST_WORDS_H
#define COAST_WORDS_H

#include "coast.h"

/* A number in four bytes, the low byte first: so identities, times, seconds and call numbers stand in lent bytes. */
static inline uint32_t coast_number_at(const uint8_t *bytes) {
    return bytes[0] | (uint32_t)bytes[1] << 8 | (uint32_t)bytes[2] << 16 | (uint32_t)bytes[3] << 24;
}

static inline void coast_put_number(uint8_t *bytes, uint32_t number) {
    for (int i = 0; i < 4; i++)
        bytes[i] = (uint8_t)(number >> 8 * i & 255u);
}

/* The character at this place of what a modem hands over or is to send, in two bytes, the low byte first. */
static inline uint32_t coast_character_at(const uint8_t *characters, size_t place) {
    return characters[place * COAST_CHARACTER_SIZE] | (uint32_t)characters[place * COAST_CHARACTER_SIZE + 1] << 8;
}

static inline void coast_put_character(uint8_t *characters, size_t place, uint32_t character) {
    characters[place * COAST_CHARACTER_SIZE] = (uint8_t)(character & 255u);
    characters[place * COAST_CHARACTER_SIZE + 1] = (uint8_t)(character >> 8 & 255u);
}

/* The action at this place of the room, from 0 to one less than coast_count; and its parts. */
static inline const uint8_t *coast_action_at(const uint8_t *room, size_t place) {
    return room + place * COAST_ONE_ACTION_SIZE;
}

static inline uint32_t coast_action_kind(const uint8_t *action) {
    return action[COAST_AT_ACTION_KIND];
}

static inline uint32_t coast_action_slot(const uint8_t *action) {
    return action[COAST_AT_ACTION_SLOT];
}

static inline size_t coast_payload_length(const uint8_t *action) {
    return action[COAST_AT_ACTION_LENGTH];
}

static inline const uint8_t *coast_payload(const uint8_t *action) {
    return action + COAST_AT_ACTION_PAYLOAD;
}

/* Of a charge: the call's ship, when the call was answered and when it stopped, in tenths, the seconds charged, and the call's
 * number, which no other charge since the set-up has. */
static inline uint32_t coast_charge_ship(const uint8_t *action) {
    return coast_number_at(coast_payload(action));
}

static inline uint32_t coast_charge_start(const uint8_t *action) {
    return coast_number_at(coast_payload(action) + 4);
}

static inline uint32_t coast_charge_stop(const uint8_t *action) {
    return coast_number_at(coast_payload(action) + 8);
}

static inline uint32_t coast_charge_seconds(const uint8_t *action) {
    return coast_number_at(coast_payload(action) + 12);
}

static inline uint32_t coast_charge_call(const uint8_t *action) {
    return coast_number_at(coast_payload(action) + 16);
}

/* Digits, one a byte as a meaning and a dial action have them, as text with a final 0; `text` has room for one more than there
 * are digits. Returns `text`. */
#define COAST_NUMBER_TEXT 17 /* enough for any number to dial */
static inline char *coast_digits_text(const uint8_t *digits, size_t count, char *text) {
    for (size_t i = 0; i < count; i++)
        text[i] = (char)('0' + digits[i]);
    text[count] = '\0';
    return text;
}

/* The number that a dial action dials, as text in COAST_NUMBER_TEXT characters. */
static inline char *coast_dialled(const uint8_t *action, char *text) {
    return coast_digits_text(coast_payload(action), coast_payload_length(action), text);
}

static inline const char *coast_answer_words(uint32_t answer) {
    switch (answer) {
    case COAST_ANSWER_DONE: return "done";
    case COAST_ANSWER_IGNORED: return "ignored";
    case COAST_ANSWER_BAD_LENGTH: return "not 21 to 28 symbols";
    case COAST_ANSWER_BAD_SYMBOL: return "a symbol over 127";
    case COAST_ANSWER_BAD_CHECK: return "the check differs";
    case COAST_ANSWER_BAD_FORMAT: return "not the format of a call";
    case COAST_ANSWER_BAD_IDENTITIES: return "not one ship and one coast station, or no ship";
    case COAST_ANSWER_BAD_CATEGORY: return "not the category of a call";
    case COAST_ANSWER_BAD_TELECOMMANDS: return "telecommands that do not go together, or no mode";
    case COAST_ANSWER_BAD_CHANNEL_FIELD: return "a channel field that does not go with the telecommand";
    case COAST_ANSWER_BAD_NUMBER: return "not a number of 1 to 16 digits";
    case COAST_ANSWER_BAD_END: return "no end of sequence";
    case COAST_ANSWER_ROOM_SHORT: return "too little room for a sequence or a transmission";
    case COAST_ANSWER_MEANING_SHORT: return "too few bytes for a meaning";
    case COAST_ANSWER_WRONG_SIZE: return "not the size of a station";
    case COAST_ANSWER_NOT_SOUND: return "not a sound station of this version";
    case COAST_ANSWER_ACTIONS_SHORT: return "too little room for actions";
    case COAST_ANSWER_TIME_TOO_LATE: return "a time past the limit";
    case COAST_ANSWER_TIME_BEFORE_CLOCK: return "a time before the station's clock";
    case COAST_ANSWER_WAIT_DUE: return "a wait is due, the tick comes first";
    case COAST_ANSWER_NO_SLOT: return "no such slot";
    case COAST_ANSWER_OPERATOR: return "a slot that is not free to take, or not taken";
    case COAST_ANSWER_BAD_SET_UP: return "not a coast station with 1 to 16 working channels";
    case COAST_ANSWER_NO_FREE_SLOT: return "no slot is free, or no call number is left";
    case COAST_ANSWER_SHIP_ENGAGED: return "the ship has a slot already, or waits for one";
    case COAST_ANSWER_NO_PHASING: return "no phasing found";
    case COAST_ANSWER_COPIES_BAD: return "all copies of a symbol are bad";
    case COAST_ANSWER_ENDS_EARLY: return "the transmission ends early";
    case COAST_ANSWER_NO_SEQUENCE: return "no sequence in what either receiver heard";
    default: return "no answer of the library";
    }
}

static inline const char *coast_action_words(uint32_t kind) {
    switch (kind) {
    case COAST_ACTION_CARRIER_ON: return "carrier on";
    case COAST_ACTION_CARRIER_OFF: return "carrier off";
    case COAST_ACTION_SEND_CHANNEL_70: return "send on channel 70";
    case COAST_ACTION_SEND_WORKING: return "send on the working channel";
    case COAST_ACTION_DIAL: return "dial";
    case COAST_ACTION_RELEASE_LINE: return "release the line";
    case COAST_ACTION_CHARGE: return "charge";
    case COAST_ACTION_RINGING_ON: return "ringing on";
    case COAST_ACTION_RINGING_OFF: return "ringing off";
    case COAST_ACTION_BUSY_TONE: return "busy tone";
    default: return "no action of the library";
    }
}

/* Of a sequence: its first telecommand, the second where the first is 104 (unable), and its end. */
static inline const char *coast_telecommand_words(uint32_t first) {
    switch (first) {
    case 100: return "simplex";
    case 101: return "duplex";
    case 104: return "unable";
    case 105: return "end of call";
    case 106: return "data";
    default: return "no telecommand of a call";
    }
}

static inline const char *coast_reason_words(uint32_t second) {
    switch (second) {
    case 100: return "no reason given";
    case 101: return "congestion";
    case 102: return "busy";
    case 103: return "queued";
    case 104: return "station barred";
    case 105: return "no operator there";
    case 106: return "no operator for the moment";
    case 107: return "equipment disabled";
    case 108: return "not on this channel";
    case 109: return "not in this mode";
    case 126: return "nothing told";
    default: return "no reason to be unable";
    }
}

static inline const char *coast_end_words(uint32_t end) {
    switch (end) {
    case 117: return "RQ";
    case 122: return "BQ";
    case 127: return "no reply wanted";
    default: return "no end of sequence";
    }
}

/* A slot's phase, by its number in a station's bytes. */
static inline const char *coast_phase_words(uint32_t phase) {
    switch (phase) {
    case 0: return "free";
    case 1: return "offered";
    case 2: return "ring-back";
    case 3: return "ring-back repeated";
    case 4: return "acknowledged";
    case 5: return "dialling";
    case 6: return "answered";
    case 7: return "hold";
    case 8: return "taken";
    case 9: return "dialled out";
    case 10: return "called";
    case 11: return "called again";
    case 12: return "ringing";
    default: return "no phase of a slot";
    }
}

#endif
