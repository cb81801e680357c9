/* What a station hears and what the library hands out, in sentences. */
#include <coast_words.h>
#include "words.h"

extern int printf(const char *, ...);

#define CALLING_CHANNEL 70u
#define FIRST_SHIP 200000000u
#define UNABLE 104u
#define NOTHING_MORE 126u /* the second telecommand where there is nothing to say */
#define RQ 117u
#define BQ 122u

void print_time(uint32_t tenths) {
    printf("%u.%u s", (unsigned)(tenths / 10u), (unsigned)(tenths % 10u));
}

void print_answer(uint32_t answer) {
    if (answer > COAST_ANSWER_IGNORED)
        printf("refused, %u: ", (unsigned)answer);
    printf("%s", coast_answer_words(answer));
}

/* Of the two identities of a sequence one is a ship's. */
static void print_identity(const uint8_t *bytes) {
    uint32_t identity = coast_number_at(bytes);
    printf("%s %09u", identity < FIRST_SHIP ? "coast station" : "ship", (unsigned)identity);
}

static void print_field(const uint8_t *meaning) {
    const uint8_t *field = meaning + COAST_AT_FIELD;
    if (meaning[COAST_AT_FIELD_KIND] == COAST_FIELD_CHANNEL)
        printf(", channel %u", (unsigned)field[0]);
    if (meaning[COAST_AT_FIELD_KIND] == COAST_FIELD_DURATION)
        printf(" after %u h %u min %u s", (unsigned)field[0], (unsigned)field[1], (unsigned)field[2]);
}

/* What a meaning says, whoever says it to whom. */
static void print_said(const uint8_t *meaning) {
    uint32_t first = meaning[COAST_AT_FIRST], second = meaning[COAST_AT_SECOND];
    char number[COAST_NUMBER_TEXT];
    printf("%s", coast_telecommand_words(first));
    if (first == UNABLE)
        printf(", %s", coast_reason_words(second));
    else if (second != NOTHING_MORE)
        printf(", second telecommand %u", (unsigned)second);
    print_field(meaning);
    printf(", number %s (%s)", coast_digits_text(meaning + COAST_AT_DIGITS, meaning[COAST_AT_DIGIT_COUNT], number),
        coast_end_words(meaning[COAST_AT_END]));
}

static const char *verb_of(uint32_t end) {
    switch (end) {
    case RQ: return "asks";
    case BQ: return "answers";
    default: return "tells";
    }
}

void print_heard(const uint8_t *symbols, size_t count) {
    uint8_t meaning[COAST_MEANING_SIZE];
    uint32_t answer = coast_read_sequence(symbols, count, meaning, sizeof meaning);
    if (answer != COAST_ANSWER_DONE) {
        printf("a sequence that cannot be read, %u: %s", (unsigned)answer, coast_answer_words(answer));
        return;
    }
    print_identity(meaning + COAST_AT_SENDER);
    printf(" %s ", verb_of(meaning[COAST_AT_END]));
    print_identity(meaning + COAST_AT_ADDRESS);
    printf(": ");
    print_said(meaning);
}

static void print_sending(const uint8_t *symbols, size_t count) {
    uint8_t meaning[COAST_MEANING_SIZE];
    if (coast_read_sequence(symbols, count, meaning, sizeof meaning) != COAST_ANSWER_DONE)
        return;
    printf("send to ");
    print_identity(meaning + COAST_AT_ADDRESS);
    printf(": ");
    print_said(meaning);
}

static void print_charge(const uint8_t *action) {
    printf(" ship %09u from ", (unsigned)coast_charge_ship(action));
    print_time(coast_charge_start(action));
    printf(" to ");
    print_time(coast_charge_stop(action));
    printf(": %u s, call %u", (unsigned)coast_charge_seconds(action), (unsigned)coast_charge_call(action));
}

void print_order(const uint8_t *action) {
    uint32_t kind = coast_action_kind(action);
    char number[COAST_NUMBER_TEXT];
    if (kind == COAST_ACTION_SEND_CHANNEL_70 || kind == COAST_ACTION_SEND_WORKING) {
        print_sending(coast_payload(action), coast_payload_length(action));
        return;
    }
    if (kind == COAST_ACTION_BUSY_TONE)
        printf("five seconds of ");
    printf("%s", coast_action_words(kind));
    switch (kind) {
    case COAST_ACTION_DIAL: printf(" %s", coast_dialled(action, number)); break;
    case COAST_ACTION_CHARGE: print_charge(action); break;
    case COAST_ACTION_RINGING_ON:
    case COAST_ACTION_RINGING_OFF:
    case COAST_ACTION_BUSY_TONE: printf(" for the caller"); break;
    default: break;
    }
}

void print_action(const uint8_t *action, const uint8_t *channels) {
    uint32_t channel = CALLING_CHANNEL;
    if (coast_action_kind(action) != COAST_ACTION_SEND_CHANNEL_70)
        channel = channels[coast_action_slot(action)];
    printf("    channel %u: ", (unsigned)channel);
    print_order(action);
    printf("\n");
}
