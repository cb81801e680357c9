/* "The script program reads standard input": one line, one answer. */
#include "station.h"

extern int getchar(void);
extern int putchar(int);
extern int fflush(void *);

#define LINE_MOST 200u
#define NUMBERS_MOST (LINE_MOST / 2u)
#define NUMBER_LIMIT 4294967295u
#define SYMBOL_LIMIT 255u
#define NEW_LINE 10
#define UNREADABLE 40
#define STATION_WRONG 41
#define PAYLOAD_AT 4u

struct line {
    uint8_t text[LINE_MOST];
    size_t length;
    bool too_long; /* "one over 200 characters" */
};

struct command {
    uint8_t letter;
    size_t count;
    uint32_t numbers[NUMBERS_MOST];
};

struct desk {
    bool stands; /* a station stands */
    struct station station;
    struct room room;
};

/* ---- reading a line ---- */

/* False at the end of the input; a last line may lack its line feed. */
static bool read_line(struct line *line) {
    int c = getchar();
    line->length = 0;
    line->too_long = false;
    if (c < 0)
        return false;
    while (c >= 0 && c != NEW_LINE) {
        if (line->length < LINE_MOST)
            line->text[line->length++] = (uint8_t)c;
        else
            line->too_long = true;
        c = getchar();
    }
    return true;
}

static bool is_digit(uint8_t c) {
    return c >= '0' && c <= '9';
}

/* One decimal number from *at on; false if none or over 4,294,967,295. */
static bool read_number(const struct line *line, size_t *at, uint32_t *number) {
    uint64_t value = 0;
    size_t begin = *at;
    while (*at < line->length && is_digit(line->text[*at])) {
        value = value * 10u + (uint64_t)(line->text[*at] - '0');
        if (value > NUMBER_LIMIT)
            return false;
        (*at)++;
    }
    *number = (uint32_t)value;
    return *at > begin;
}

/* The letter and its numbers: "Fields are decimal, one space apart". */
static bool read_fields(const struct line *line, struct command *command) {
    size_t at = 1;
    command->count = 0;
    if (line->too_long || line->length == 0u)
        return false;
    command->letter = line->text[0];
    while (at < line->length) {
        if (line->text[at] != ' ')
            return false;
        at++;
        if (!read_number(line, &at, &command->numbers[command->count]))
            return false;
        command->count++;
    }
    return true;
}

/* "a symbol over 255": from this place on the numbers are symbols. */
static bool symbols_fit(const struct command *command, size_t from) {
    for (size_t i = from; i < command->count; i++)
        if (command->numbers[i] > SYMBOL_LIMIT)
            return false;
    return command->count >= from;
}

#define READABLE_alone command->count == 1u
#define READABLE_on_slot command->count == 2u
#define READABLE_by_hand command->count == 2u
#define READABLE_with_symbols symbols_fit(command, 1)
#define READABLE_on_slot_with_symbols symbols_fit(command, 2)
#define READABLE_to_ship command->count >= 3u

/* "S identity channels", or an event: its time, its slot if it is on one, its
 * symbols if it has any, or its ship, mode and digits; "a list may be empty". */
static bool is_readable(const struct command *command) {
    switch (command->letter) {
    case 'S': return command->count >= 1u;
#define AS_READABLE(letter, entry, takes) \
    case letter: return READABLE_##takes;
        EVENTS(AS_READABLE)
    default: return false;
    }
}

/* ---- doing it ---- */

static struct step set_up(const struct command *command) {
    return second_set_up(command->numbers[0], command->numbers + 1, command->count - 1u);
}

/* The numbers from this place on, as symbols. */
static struct heard heard_in(const struct command *command, size_t from, uint8_t *symbols) {
    struct heard heard = {symbols, command->count - from};
    for (size_t i = 0; i < heard.count; i++)
        symbols[i] = (uint8_t)command->numbers[from + i];
    return heard;
}

/* Time, ship and mode; the numbers behind them are digits, or no digits. */
static struct caller caller_in(const struct command *command) {
    struct caller caller = {command->numbers[1], command->numbers[2], command->numbers + 3, command->count - 3u};
    return caller;
}

#define GIVEN_alone
#define GIVEN_on_slot command->numbers[1],
#define GIVEN_by_hand command->numbers[1],
#define GIVEN_with_symbols heard_in(command, 1, symbols),
#define GIVEN_on_slot_with_symbols command->numbers[1], heard_in(command, 2, symbols),
#define GIVEN_to_ship caller_in(command),

/* Of a letter that is_readable knows. */
static struct step happen(struct desk *desk, const struct command *command) {
    struct lent room = {desk->room.bytes, sizeof desk->room};
    uint8_t symbols[NUMBERS_MOST];
    switch (command->letter) {
#define AS_STEP(letter, entry, takes) \
    case letter: return second_##entry(desk->station, command->numbers[0], GIVEN_##takes room);
        EVENTS(AS_STEP)
    default: return (struct step){0};
    }
}

/* "40, tested first. No station yet, or an S when one stands: 41." */
static int do_line(struct desk *desk, const struct line *line, uint32_t *actions) {
    struct command command;
    struct step step;
    *actions = 0;
    if (!read_fields(line, &command) || !is_readable(&command))
        return UNREADABLE;
    if ((command.letter == 'S') == desk->stands)
        return STATION_WRONG;
    step = command.letter == 'S' ? set_up(&command) : happen(desk, &command);
    if (step.answer != SET_UP_BAD) {
        desk->stands = true;
        desk->station = step.station;
    }
    *actions = step.actions;
    return step.answer;
}

/* ---- printing ---- */

static void print_number(uint32_t number) {
    char digits[10];
    size_t count = 0;
    do {
        digits[count++] = (char)('0' + (char)(number % 10u));
        number /= 10u;
    } while (number > 0u);
    while (count > 0u)
        putchar(digits[--count]);
}

static void print_next(uint32_t number) {
    putchar(' ');
    print_number(number);
}

/* "each action as kind, slot, payload bytes in decimal" */
static void print_action(const uint8_t *block) {
    print_number(block[0]);
    print_next(block[1]);
    for (size_t i = 0; i < block[2]; i++)
        print_next(block[PAYLOAD_AT + i]);
    putchar(NEW_LINE);
}

/* "It prints answer, clock, action count, next due time (`-` if none)";
 * "Without a station the rest is `0 0 -`." */
static void print_answer(const struct desk *desk, int answer, uint32_t actions) {
    uint32_t due = 0;
    print_number((uint32_t)answer);
    print_next(desk->stands ? desk->station.clock : 0u);
    print_next(actions);
    if (desk->stands && second_next_due(&desk->station, &due)) {
        print_next(due);
    } else {
        putchar(' ');
        putchar('-');
    }
    putchar(NEW_LINE);
    for (uint32_t i = 0; i < actions; i++)
        print_action(desk->room.bytes + i * ACTION_BYTES);
}

int main(void) {
    struct desk desk = {0};
    struct line line;
    while (read_line(&line)) {
        uint32_t actions = 0;
        int answer = do_line(&desk, &line, &actions);
        print_answer(&desk, answer, actions);
        fflush(0);
    }
    return 0;
}
