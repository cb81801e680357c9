/* Reader and writer of one sequence (01, "One sequence, 21 to 28 symbols"). */
#include "sequence.h"

#define FORMAT 123u
#define ROUTINE 100u
#define ODD_COUNT 105u
#define EVEN_COUNT 106u
#define CHANNEL_MARK 90u

/* The table's places. */
enum place {
    AT_FORMAT = 0,
    AT_ADDRESS = 1,
    AT_CATEGORY = 6,
    AT_SELF = 7,
    AT_FIRST = 12,
    AT_SECOND = 13,
    AT_FIELD = 14,
    AT_COUNT = 17,
    AT_NUMBER = 18
};

#define IDENTITY_PAIRS 5u

/* ---- the rules that reader and writer share ---- */

bool second_is_ship(uint32_t identity) {
    return identity >= 200000000u && identity <= 799999999u;
}

bool second_is_coast(uint32_t identity) {
    return identity >= 2000000u && identity <= 7999999u;
}

bool second_is_channel(uint32_t channel) {
    bool low = channel >= 1u && channel <= 28u && channel != 16u;
    bool high = channel >= 60u && channel <= 88u && channel != 70u;
    return low || high;
}

bool second_is_duration(uint8_t hours, uint8_t minutes, uint8_t seconds) {
    return hours <= 99u && minutes <= 59u && seconds <= 59u;
}

/* "One of the two identities is a ship's, the other a coast station's." */
static bool identities_fit(uint32_t address, uint32_t self) {
    return (second_is_ship(address) && second_is_coast(self)) || (second_is_coast(address) && second_is_ship(self));
}

static bool is_call(uint8_t first) {
    return first == SIMPLEX || first == DUPLEX || first == DATA;
}

/* "Telecommands: 100 simplex, 101 duplex or 106 data, second 100 to 126; 104
 * unable, second 100 to 109 or 126; 105 end of call, second 126." */
static bool telecommands_fit(uint8_t first, uint8_t second) {
    if (is_call(first))
        return second >= 100u && second <= 126u;
    if (first == UNABLE)
        return (second >= 100u && second <= 109u) || second == NO_INFORMATION;
    return first == END_OF_CALL && second == NO_INFORMATION;
}

static bool end_fits(uint8_t end) {
    return end == RQ || end == BQ || end == OTHER_END;
}

/* ---- judging a meaning ---- */

static bool no_duration(const struct meaning *m) {
    return m->hours == 0u && m->minutes == 0u && m->seconds == 0u;
}

/* "The channel field may always be 126 126 126. Otherwise with 100, 101 and
 * 106 it is 90, 0, channel ..; with 105 it is hours ..; with 104 nothing else
 * is allowed." Unused parts must be 0, so that a sequence has one meaning. */
static bool field_fits(const struct meaning *m) {
    switch (m->kind) {
    case FIELD_NONE: return m->channel == 0u && no_duration(m);
    case FIELD_CHANNEL: return is_call(m->first) && second_is_channel(m->channel) && no_duration(m);
    case FIELD_DURATION:
        return m->first == END_OF_CALL && m->channel == 0u && second_is_duration(m->hours, m->minutes, m->seconds);
    default: return false;
    }
}

/* "A number has 1 to 16 digits .. the writer wants [unused digits] 0." */
static bool number_fits(const struct meaning *m) {
    if (m->count < 1u || m->count > MOST_DIGITS)
        return false;
    for (size_t i = 0; i < MOST_DIGITS; i++) {
        uint8_t most = i < m->count ? 9u : 0u;
        if (m->digits[i] > most)
            return false;
    }
    return true;
}

int second_judge(const struct meaning *m) {
    if (!identities_fit(m->address, m->self))
        return 15;
    if (!telecommands_fit(m->first, m->second))
        return 17;
    if (!field_fits(m))
        return 18;
    if (!number_fits(m))
        return 19;
    return end_fits(m->end) ? 0 : 20;
}

/* ---- reading ---- */

static uint8_t check_of(const uint8_t *symbols, size_t n) {
    uint8_t check = 0;
    for (size_t i = 0; i < n; i++)
        check = (uint8_t)(check ^ symbols[i]);
    return check;
}

/* Refusals 11 to 14: length, symbols, check, format. */
static int judge_frame(const uint8_t *symbols, size_t n) {
    if (n < SHORTEST_SEQUENCE || n > LONGEST_SEQUENCE)
        return 11;
    for (size_t i = 0; i < n; i++)
        if (symbols[i] > 127u)
            return 12;
    if (check_of(symbols, n - 1u) != symbols[n - 1u])
        return 13;
    return symbols[AT_FORMAT] == FORMAT ? 0 : 14;
}

/* "An identity is nine digits and a final 0, in pairs." */
static bool read_identity(const uint8_t *pairs, uint32_t *identity) {
    uint32_t value = 0;
    for (size_t i = 0; i < IDENTITY_PAIRS; i++)
        if (pairs[i] > 99u)
            return false;
    if (pairs[4] % 10u != 0u)
        return false;
    for (size_t i = 0; i < 4u; i++)
        value = value * 100u + pairs[i];
    *identity = value * 10u + pairs[4] / 10u;
    return true;
}

static bool read_identities(const uint8_t *symbols, struct meaning *m) {
    return read_identity(symbols + AT_ADDRESS, &m->address) && read_identity(symbols + AT_SELF, &m->self) &&
           identities_fit(m->address, m->self);
}

/* The field's meaning depends on the first telecommand: 90 0 26 is a channel
 * in a call, and ninety hours and 26 s in an end of call. */
static bool read_field(const uint8_t *field, struct meaning *m) {
    if (field[0] == NO_INFORMATION && field[1] == NO_INFORMATION && field[2] == NO_INFORMATION) {
        m->kind = FIELD_NONE;
    } else if (is_call(m->first)) {
        if (field[0] != CHANNEL_MARK || field[1] != 0u)
            return false;
        m->kind = FIELD_CHANNEL;
        m->channel = field[2];
    } else {
        m->kind = FIELD_DURATION;
        m->hours = field[0];
        m->minutes = field[1];
        m->seconds = field[2];
    }
    return field_fits(m);
}

/* "105 if the number has an odd count of digits, 106 if even", "1 to 8 digit
 * pairs, each 0 to 99", "an odd one has a 0 put before it". */
static bool read_number(const uint8_t *symbols, size_t n, struct meaning *m) {
    size_t pairs = n - SHORTEST_SEQUENCE + 1u;
    size_t skipped = symbols[AT_COUNT] == ODD_COUNT ? 1u : 0u;
    if (symbols[AT_COUNT] != ODD_COUNT && symbols[AT_COUNT] != EVEN_COUNT)
        return false;
    if (skipped == 1u && symbols[AT_NUMBER] > 9u)
        return false;
    for (size_t i = 0; i < pairs; i++)
        if (symbols[AT_NUMBER + i] > 99u)
            return false;
    m->count = (uint8_t)(2u * pairs - skipped);
    for (size_t i = 0; i < m->count; i++) {
        size_t at = i + skipped;
        uint8_t pair = symbols[AT_NUMBER + at / 2u];
        m->digits[i] = (uint8_t)(at % 2u == 0u ? pair / 10u : pair % 10u);
    }
    return true;
}

int second_read(const uint8_t *symbols, size_t n, struct meaning *m) {
    struct meaning found = {0};
    int frame = judge_frame(symbols, n);
    if (frame != 0)
        return frame;
    if (!read_identities(symbols, &found))
        return 15;
    if (symbols[AT_CATEGORY] != ROUTINE)
        return 16;
    found.first = symbols[AT_FIRST];
    found.second = symbols[AT_SECOND];
    if (!telecommands_fit(found.first, found.second))
        return 17;
    if (!read_field(symbols + AT_FIELD, &found))
        return 18;
    if (!read_number(symbols, n, &found))
        return 19;
    found.end = symbols[n - 2u];
    if (!end_fits(found.end))
        return 20;
    *m = found;
    return 0;
}

/* ---- writing ---- */

static void write_identity(uint32_t identity, uint8_t *pairs) {
    uint32_t rest = identity / 10u;
    pairs[4] = (uint8_t)(identity % 10u * 10u);
    for (size_t i = 4; i > 0u; i--) {
        pairs[i - 1u] = (uint8_t)(rest % 100u);
        rest /= 100u;
    }
}

static void write_field(const struct meaning *m, uint8_t *field) {
    if (m->kind == FIELD_CHANNEL) {
        field[0] = CHANNEL_MARK;
        field[1] = 0;
        field[2] = m->channel;
    } else if (m->kind == FIELD_DURATION) {
        field[0] = m->hours;
        field[1] = m->minutes;
        field[2] = m->seconds;
    } else {
        field[0] = field[1] = field[2] = NO_INFORMATION;
    }
}

/* Writes the count's parity and the pairs; hands back the place after them. */
static size_t write_number(const struct meaning *m, uint8_t *room) {
    size_t skipped = m->count % 2u;
    size_t pairs = (m->count + skipped) / 2u;
    room[AT_COUNT] = skipped == 1u ? ODD_COUNT : EVEN_COUNT;
    for (size_t i = 0; i < pairs; i++) {
        bool filled = i == 0u && skipped == 1u;
        unsigned tens = filled ? 0u : m->digits[2u * i - skipped];
        unsigned ones = m->digits[2u * i + 1u - skipped];
        room[AT_NUMBER + i] = (uint8_t)(tens * 10u + ones);
    }
    return AT_NUMBER + pairs;
}

int second_write(const struct meaning *m, uint8_t *room, size_t room_len, size_t *written) {
    int refusal = room_len < LONGEST_SEQUENCE ? 21 : second_judge(m);
    size_t at;
    if (refusal != 0)
        return refusal;
    room[AT_FORMAT] = FORMAT;
    write_identity(m->address, room + AT_ADDRESS);
    room[AT_CATEGORY] = ROUTINE;
    write_identity(m->self, room + AT_SELF);
    room[AT_FIRST] = m->first;
    room[AT_SECOND] = m->second;
    write_field(m, room + AT_FIELD);
    at = write_number(m, room);
    room[at] = m->end;
    room[at + 1u] = check_of(room, at + 1u);
    *written = at + 2u;
    return 0;
}
