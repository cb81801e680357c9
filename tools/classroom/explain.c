/* Puts a script and its replies in words: a filter, one line out for each line in, at once. With a word behind it, whatever that is,
 * it tells what a line of a script may be instead.
 *
 * A line of the script comes in as `> LINE`. Behind it comes its reply as a script program prints it: the first line, and one for
 * each action. The words are those of coast_words.h, examples/words.c and script_words.h; here lines are only taken apart. Kept from
 * line to line is the channel of each slot, from the set-up that was done, and how many actions are still to come. Whatever is no
 * such line gets `not understood: ` and the reason. */
#include <stdbool.h>
#include <coast_words.h>
#include <words.h>
#include "script_words.h"

extern int printf(const char *, ...);
extern int snprintf(char *, size_t, const char *, ...);
extern int getchar(void);
extern int fflush(void *);

#define MARK '>'
#define MARK_LENGTH 2u
#define LINE_MOST 200u /* characters of a script's line */
#define NUMBERS_MOST (LINE_MOST / 2u)
#define SLOTS_MOST 16u
#define ACTIONS_MOST (COAST_ACTIONS_SIZE / COAST_ONE_ACTION_SIZE)
#define PAYLOAD_MOST (COAST_ONE_ACTION_SIZE - COAST_AT_ACTION_PAYLOAD)
#define DIGITS_MOST 16u
#define CHARGE_LENGTH 20u
#define NO_SLOT 255u
#define CALLING_CHANNEL 70u
#define SIMPLEX 100u
#define DUPLEX 101u
#define UNREADABLE 40u /* the script's own two answers */
#define OUT_OF_TURN 41u

struct numbers {
    size_t count;
    uint32_t all[NUMBERS_MOST];
};

struct slots {
    uint32_t channels[SLOTS_MOST];
    size_t count;
};

static struct slots station; /* the one that was set up */
static struct slots asked;   /* what the line in hand would set up */
static size_t actions_to_come;

/* ---- a line taken apart: each reader gives NULL, or why it cannot read ---- */

struct text {
    const char *at, *end;
};

static bool take(struct text *text, char c) {
    bool there = text->at < text->end && *text->at == c;
    text->at += there;
    return there;
}

static const char *take_number(struct text *text, uint32_t *number) {
    const char *begin = text->at;
    uint64_t value = 0;
    for (; text->at < text->end && *text->at >= '0' && *text->at <= '9'; text->at++) {
        value = value * 10u + (uint64_t)(*text->at - '0');
        if (value > UINT32_MAX)
            return "a number is over 4294967295";
    }
    *number = (uint32_t)value;
    return text->at > begin ? NULL : "its fields are not decimal numbers, one space apart";
}

/* All numbers to the end, each behind a space. */
static const char *take_numbers(struct text *text, struct numbers *numbers) {
    const char *wrong = NULL;
    while (wrong == NULL && text->at < text->end && numbers->count < NUMBERS_MOST) {
        take(text, ' ');
        wrong = take_number(text, &numbers->all[numbers->count++]);
    }
    return wrong;
}

/* What no line may be. */
static const char *misshaped(struct text text) {
    if (text.at == text.end)
        return "it is empty";
    if (text.end[-1] == '\r')
        return "it ends with a carriage return; a line ends with a line feed alone";
    return (size_t)(text.end - text.at) > LINE_MOST ? "it has more than 200 characters" : NULL;
}

/* ---- lines of a script ---- */

static bool is_listed(const struct line_words *words) {
    size_t length = 0;
    while (words->fields[length] != '\0')
        length++;
    return words->fields[length - 1u] == '.';
}

/* The numbers that a line needs: those of its list may be none. */
static size_t least_of(const struct line_words *words) {
    size_t count = is_listed(words) ? 0u : 1u;
    for (const char *field = words->fields; *field != '\0'; field++)
        count += *field == ' ';
    return count;
}

static const char *takes(const struct line_words *words) {
    static char told[40];
    snprintf(told, sizeof told, "%c takes %s", words->letter, words->fields);
    return told;
}

static bool all_within(const struct numbers *numbers, size_t from, uint32_t most) {
    for (size_t i = from; i < numbers->count; i++)
        if (numbers->all[i] > most)
            return false;
    return true;
}

static const char *read_script_line(struct text text, const struct line_words **words, struct numbers *numbers) {
    const char *wrong = misshaped(text);
    if (wrong != NULL)
        return wrong;
    *words = words_of_line(*text.at++);
    if (*words == NULL)
        return "no line of a script begins so";
    if (text.at < text.end && *text.at != ' ')
        return "behind its letter comes a space";
    wrong = take_numbers(&text, numbers);
    if (wrong != NULL)
        return wrong;
    size_t least = least_of(*words);
    if (numbers->count < least || (numbers->count > least && !is_listed(*words)))
        return takes(*words);
    bool symbols = (*words)->letter == 'Q' || (*words)->letter == 'W';
    return symbols && !all_within(numbers, least, UINT8_MAX) ? "a symbol is over 255" : NULL;
}

static void print_slot(uint32_t slot) {
    printf("slot %u, ", (unsigned)slot);
    if (slot < station.count)
        printf("channel %u: ", (unsigned)station.channels[slot]);
    else
        printf("which has no channel: ");
}

static void print_symbols(const struct numbers *numbers, size_t from) {
    uint8_t symbols[NUMBERS_MOST];
    for (size_t i = from; i < numbers->count; i++)
        symbols[i - from] = (uint8_t)numbers->all[i];
    print_heard(symbols, numbers->count - from);
}

static void print_set_up(const struct numbers *numbers) {
    printf("set up coast station %09u", (unsigned)numbers->all[0]);
    if (numbers->count == 1u)
        printf(", with no channel");
    asked.count = 0;
    for (size_t i = 1; i < numbers->count; i++) {
        printf("%s slot %u on channel %u", i == 1u ? ":" : ",", (unsigned)(i - 1u), (unsigned)numbers->all[i]);
        if (asked.count < SLOTS_MOST)
            asked.channels[asked.count++] = numbers->all[i];
    }
}

/* Digits that are none stand apart, as they were written. */
static void print_call(const char *name, const struct numbers *numbers) {
    const char *apart = all_within(numbers, 3, 9) ? "" : " ";
    uint32_t mode = numbers->all[2];
    printf("%s to ship %09u, ", name, (unsigned)numbers->all[1]);
    if (mode == SIMPLEX || mode == DUPLEX)
        printf("%s", coast_telecommand_words(mode));
    else
        printf("in mode %u", (unsigned)mode);
    printf(numbers->count > 3u ? ", the caller's number " : ", with no number of the caller");
    for (size_t i = 3; i < numbers->count; i++)
        printf("%s%u", i > 3u ? apart : "", (unsigned)numbers->all[i]);
}

static void print_happening(const struct line_words *words, const struct numbers *numbers) {
    print_time(numbers->all[0]);
    printf(", ");
    switch (words->letter) {
    case 'Q':
        printf("on channel %u: ", CALLING_CHANNEL);
        print_symbols(numbers, 1);
        break;
    case 'W':
        print_slot(numbers->all[1]);
        print_symbols(numbers, 2);
        break;
    case 'C': print_call(words->name, numbers); break;
    case 'T': printf("%s", words->name); break;
    default: print_slot(numbers->all[1]); printf("%s", words->sentence);
    }
}

static const char *explain_script_line(struct text text) {
    const struct line_words *words = NULL;
    struct numbers numbers = {.count = 0};
    asked.count = 0;
    actions_to_come = 0;
    const char *wrong = read_script_line(text, &words, &numbers);
    if (wrong != NULL)
        return wrong;
    if (words->letter == 'S')
        print_set_up(&numbers);
    else
        print_happening(words, &numbers);
    return NULL;
}

/* ---- the first line of a reply ---- */

static void print_answer_of_script(uint32_t answer) {
    if (answer == UNREADABLE)
        printf("refused, 40: the line cannot be read");
    else if (answer == OUT_OF_TURN)
        printf("refused, 41: no station is set up yet, or one is already");
    else
        print_answer(answer);
}

static void print_reply(const struct numbers *numbers, bool waits) {
    print_answer_of_script(numbers->all[0]);
    printf("; the clock shows ");
    print_time(numbers->all[1]);
    if (actions_to_come == 0u)
        printf("; no action; ");
    else
        printf("; %u action%s; ", (unsigned)actions_to_come, actions_to_come == 1u ? "" : "s");
    if (waits) {
        printf("next wait due at ");
        print_time(numbers->all[3]);
    } else
        printf("no wait runs");
}

static const char *explain_reply(struct text text) {
    static const char *const parts = "a reply begins with four parts: answer, clock, count of actions, next due time or -";
    struct numbers numbers = {.count = 0};
    const char *wrong = misshaped(text);
    if (wrong != NULL)
        return wrong;
    bool waits = text.end - text.at < 2 || text.end[-1] != '-' || text.end[-2] != ' ';
    text.end -= waits ? 0 : 2;
    wrong = *text.at == ' ' ? parts : take_numbers(&text, &numbers);
    if (wrong != NULL || numbers.count != (waits ? 4u : 3u))
        return parts;
    if (numbers.all[2] > ACTIONS_MOST)
        return "a reply has at most eight actions";
    if (numbers.all[0] == COAST_ANSWER_DONE && asked.count > 0u)
        station = asked;
    asked.count = 0;
    actions_to_come = numbers.all[2];
    print_reply(&numbers, waits);
    return NULL;
}

/* ---- the line of an action ---- */

static const char *lay_action(const struct numbers *numbers, uint8_t *action) {
    if (numbers->count < 2u)
        return "an action has a kind, a slot and its payload";
    if (!all_within(numbers, 0, UINT8_MAX))
        return "a number of an action is over 255";
    if (numbers->count - 2u > PAYLOAD_MOST)
        return "a payload has at most 36 bytes";
    action[COAST_AT_ACTION_KIND] = (uint8_t)numbers->all[0];
    action[COAST_AT_ACTION_SLOT] = (uint8_t)numbers->all[1];
    action[COAST_AT_ACTION_LENGTH] = (uint8_t)(numbers->count - 2u);
    for (size_t i = 2; i < numbers->count; i++)
        action[COAST_AT_ACTION_PAYLOAD + i - 2u] = (uint8_t)numbers->all[i];
    return NULL;
}

static bool are_digits(const uint8_t *bytes, size_t count) {
    for (size_t i = 0; i < count; i++)
        if (bytes[i] > 9u)
            return false;
    return count >= 1u && count <= DIGITS_MOST;
}

static const char *judge_payload(const uint8_t *action) {
    size_t length = coast_payload_length(action);
    uint8_t meaning[COAST_MEANING_SIZE];
    uint32_t answer;
    switch (coast_action_kind(action)) {
    case COAST_ACTION_SEND_CHANNEL_70:
    case COAST_ACTION_SEND_WORKING:
        answer = coast_read_sequence(coast_payload(action), length, meaning, sizeof meaning);
        return answer == COAST_ANSWER_DONE ? NULL : coast_answer_words(answer);
    case COAST_ACTION_DIAL:
        return are_digits(coast_payload(action), length) ? NULL : "what is to be dialled is not 1 to 16 digits";
    case COAST_ACTION_CHARGE: return length == CHARGE_LENGTH ? NULL : "a charge has 20 bytes";
    case COAST_ACTION_CARRIER_ON:
    case COAST_ACTION_CARRIER_OFF:
    case COAST_ACTION_RELEASE_LINE:
    case COAST_ACTION_RINGING_ON:
    case COAST_ACTION_RINGING_OFF:
    case COAST_ACTION_BUSY_TONE: return length == 0u ? NULL : "nothing belongs behind the slot of this action";
    default: return "no action has this kind";
    }
}

static const char *explain_action(struct text text) {
    struct numbers numbers = {.count = 0};
    uint8_t action[COAST_ONE_ACTION_SIZE] = {0};
    const char *wrong = misshaped(text);
    if (wrong == NULL)
        wrong = *text.at == ' ' ? "it begins with a space" : take_numbers(&text, &numbers);
    if (wrong == NULL)
        wrong = lay_action(&numbers, action);
    if (wrong == NULL)
        wrong = judge_payload(action);
    if (wrong != NULL)
        return wrong;
    bool calling = coast_action_kind(action) == COAST_ACTION_SEND_CHANNEL_70;
    if (calling && coast_action_slot(action) != NO_SLOT)
        printf("slot %u, ", (unsigned)coast_action_slot(action));
    if (calling)
        printf("on channel %u: ", CALLING_CHANNEL);
    else
        print_slot(coast_action_slot(action));
    print_order(action);
    return NULL;
}

/* ---- line by line ---- */

/* Keeps one character more than any line that is understood. Gives the length, or -1 at the end. */
static int read_line(char *line, size_t most) {
    size_t length = 0;
    int c = getchar();
    if (c < 0)
        return -1;
    for (; c >= 0 && c != '\n'; c = getchar())
        if (length < most)
            line[length++] = (char)c;
    return (int)length;
}

static const char *explain(struct text text) {
    if (take(&text, MARK)) {
        take(&text, ' ');
        return explain_script_line(text);
    }
    if (actions_to_come == 0u)
        return explain_reply(text);
    actions_to_come--;
    return explain_action(text);
}

static int help(void) {
    for (size_t i = 0; i < sizeof line_words / sizeof line_words[0]; i++)
        printf("%c %-24s %s\n", line_words[i].letter, line_words[i].fields, line_words[i].sentence);
    return fflush(NULL) == 0 ? 0 : 1;
}

int main(int count, char **words) {
    char line[MARK_LENGTH + LINE_MOST + 1u];
    (void)words;
    if (count > 1)
        return help();
    for (int length = read_line(line, sizeof line); length >= 0; length = read_line(line, sizeof line)) {
        const char *wrong = explain((struct text){line, line + length});
        if (wrong != NULL)
            printf("not understood: %s", wrong);
        printf("\n");
        if (fflush(NULL) != 0)
            return 1;
    }
    return 0;
}
