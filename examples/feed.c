/* Lines of the feed to orders. What a ship sends is written by the library from its meaning. */
#include <coast_words.h>
#include "feed.h"

extern int getchar(void);

#define SIMPLEX 100u
#define DUPLEX 101u
#define UNABLE 104u
#define END_OF_CALL 105u
#define DATA 106u
#define NOTHING_MORE 126u /* the second telecommand where there is nothing to say */
#define RQ 117u
#define BQ 122u
#define NO_REPLY 127u

/* Why a line cannot be read on at this character, or NULL. */
static const char *fault_at(int c, size_t length) {
    if (c == '\r')
        return "it has a carriage return; a line ends with a line feed alone";
    if (c < ' ' || c > '~')
        return "it has a byte that is no printed character";
    return length < LINE_MOST ? NULL : "it is too long";
}

bool next_line(struct line *line) {
    size_t length = 0;
    int c = getchar();
    bool any = c >= 0;
    line->unreadable = NULL;
    for (; c >= 0 && c != '\n'; c = getchar()) {
        if (line->unreadable == NULL)
            line->unreadable = fault_at(c, length);
        if (line->unreadable == NULL)
            line->text[length++] = (char)c;
    }
    line->text[length] = '\0';
    return any;
}

/* ---- words: each of these moves behind what it takes ---- */

static void skip_spaces(const char **at) {
    while (**at == ' ')
        ++*at;
}

static bool is_digit(char c) {
    return c >= '0' && c <= '9';
}

static bool ends_word(char c) {
    return c == ' ' || c == '\0';
}

static bool take_word(const char **at, const char *word) {
    const char *from = *at;
    for (; *word != '\0'; word++, from++)
        if (*from != *word)
            return false;
    if (!ends_word(*from))
        return false;
    *at = from;
    skip_spaces(at);
    return true;
}

static bool take_number(const char **at, uint32_t most, uint32_t *number) {
    uint64_t value = 0;
    const char *from = *at;
    for (; is_digit(**at) && value <= most; ++*at)
        value = value * 10u + (uint64_t)(**at - '0');
    *number = (uint32_t)value;
    return *at > from && value <= most;
}

static bool take_whole(const char **at, uint32_t most, uint32_t *number) {
    bool taken = take_number(at, most, number) && ends_word(**at);
    skip_spaces(at);
    return taken;
}

/* Seconds, with a tenth or without, to tenths. */
static bool take_time(const char **at, uint32_t *tenths) {
    uint32_t seconds = 0, tenth = 0;
    if (!take_number(at, UINT32_MAX / 10u - 1u, &seconds))
        return false;
    if (**at == '.') {
        ++*at;
        if (!is_digit(**at))
            return false;
        tenth = (uint32_t)(*(*at)++ - '0');
    }
    *tenths = seconds * 10u + tenth;
    bool whole = ends_word(**at);
    skip_spaces(at);
    return whole;
}

/* All that is left of the line, a byte a number. */
static bool take_bytes(const char **at, struct order *order) {
    uint32_t byte = 0;
    while (**at != '\0') {
        if (!take_whole(at, UINT8_MAX, &byte))
            return false;
        order->bytes[order->count++] = (uint8_t)byte;
    }
    return true;
}

static bool take_mode(const char **at, uint8_t *mode) {
    if (take_word(at, "simplex"))
        *mode = SIMPLEX;
    else if (take_word(at, "duplex"))
        *mode = DUPLEX;
    else if (take_word(at, "data"))
        *mode = DATA;
    else
        return false;
    return true;
}

/* The number that ends the line, of so many digits at most. */
static bool take_digits(const char **at, uint8_t *digits, size_t most, size_t *count) {
    for (*count = 0; is_digit(**at) && *count < most; ++*at)
        digits[(*count)++] = (uint8_t)(**at - '0');
    return **at == '\0';
}

/* ---- what a ship sends ---- */

static bool take_channel(const char **at, uint8_t *meaning) {
    uint32_t channel = 0;
    bool taken = take_whole(at, UINT8_MAX, &channel);
    meaning[COAST_AT_FIELD_KIND] = COAST_FIELD_CHANNEL;
    meaning[COAST_AT_FIELD] = (uint8_t)channel;
    return taken;
}

/* What the ship says, as its telecommand, field and end of sequence. */
static bool take_saying(const char **at, uint8_t *meaning) {
    uint8_t *first = meaning + COAST_AT_FIRST;
    meaning[COAST_AT_SECOND] = NOTHING_MORE;
    if (take_word(at, "asks")) {
        meaning[COAST_AT_END] = RQ;
        return take_mode(at, first);
    }
    if (take_word(at, "agrees")) {
        meaning[COAST_AT_END] = BQ;
        return take_channel(at, meaning) && take_mode(at, first);
    }
    if (take_word(at, "declines")) {
        meaning[COAST_AT_END] = BQ;
        *first = UNABLE;
        return true;
    }
    if (take_word(at, "calls")) {
        meaning[COAST_AT_END] = NO_REPLY;
        return take_mode(at, first);
    }
    *first = END_OF_CALL;
    meaning[COAST_AT_END] = RQ;
    return take_word(at, "ends");
}

static bool take_sequence(const char **at, uint32_t station, struct order *order) {
    uint8_t meaning[COAST_MEANING_SIZE] = {0};
    uint32_t ship = 0;
    size_t digits = 0;
    if (!take_whole(at, UINT32_MAX, &ship) || !take_saying(at, meaning) ||
        !take_digits(at, meaning + COAST_AT_DIGITS, COAST_MEANING_SIZE - COAST_AT_DIGITS, &digits))
        return false;
    meaning[COAST_AT_DIGIT_COUNT] = (uint8_t)digits;
    coast_put_number(meaning + COAST_AT_ADDRESS, station);
    coast_put_number(meaning + COAST_AT_SENDER, ship);
    uint32_t returned = coast_write_sequence(meaning, sizeof meaning, order->bytes, sizeof order->bytes);
    order->count = coast_count(returned);
    return coast_answer(returned) == COAST_ANSWER_DONE;
}

/* ---- whole lines ---- */

static bool take_heard(const char **at, uint32_t station, struct order *order) {
    order->kind = HEARD;
    if (!take_whole(at, UINT32_MAX, &order->channel))
        return false;
    return take_word(at, "symbols") ? take_bytes(at, order) : take_sequence(at, station, order);
}

/* Ship, mode and number are the library's to judge. */
static bool take_call(const char **at, struct order *order) {
    order->kind = FROM_ASHORE;
    return take_whole(at, UINT32_MAX, &order->number) && take_mode(at, &order->mode) &&
           take_digits(at, order->bytes, sizeof order->bytes, &order->count);
}

static bool take_slot_event(const char **at, struct order *order) {
    static const struct {
        const char *word;
        slot_event *event;
    } events[] = {
        {"up", coast_carrier_up},
        {"down", coast_carrier_down},
        {"dialled", coast_dialling_ended},
        {"off-hook", coast_off_hook},
        {"on-hook", coast_on_hook},
        {"take", coast_take},
        {"give-back", coast_give_back},
    };
    order->kind = ON_SLOT;
    for (size_t i = 0; i < sizeof events / sizeof events[0]; i++)
        if (take_word(at, events[i].word)) {
            order->event = events[i].event;
            return take_whole(at, UINT32_MAX, &order->channel) && **at == '\0';
        }
    return false;
}

bool says_nothing(const struct line *line) {
    const char *at = line->text;
    skip_spaces(&at);
    return line->unreadable == NULL && (*at == '\0' || *at == '#');
}

bool read_order(const struct line *line, uint32_t station, struct order *order) {
    const char *at = line->text;
    *order = (struct order){.kind = SET_UP};
    skip_spaces(&at);
    if (line->unreadable != NULL)
        return false;
    if (take_word(&at, "station"))
        return take_whole(&at, UINT32_MAX, &order->number) && take_word(&at, "on") && take_bytes(&at, order);
    if (!take_time(&at, &order->time))
        return false;
    if (take_word(&at, "heard"))
        return take_heard(&at, station, order);
    if (take_word(&at, "from-ashore"))
        return take_call(&at, order);
    order->kind = TICK;
    if (take_word(&at, "tick"))
        return *at == '\0';
    order->kind = LATE;
    if (take_word(&at, "late"))
        return take_time(&at, &order->number) && *at == '\0';
    return take_slot_event(&at, order);
}
