/* Lays numbers out by the library, for lessons/sequence: decimal numbers in its arguments, decimal numbers in its output.
 *
 *   sequence write ADDRESS SENDER FIRST SECOND KIND BYTE BYTE BYTE END [DIGIT]...   the symbols of the sequence with this meaning
 *   sequence read [SYMBOL]...                                                      the same parts of a sequence; below, its words
 *   sequence charge SHIP START STOP SECONDS CALL                                   the bytes of a charge's payload
 *
 * Status 1 where the library refuses, with the refusal's number and words on standard error; 2 where a number does not fit. */
#include <coast_words.h>
#include <words.h>
#include "orders.h"

extern int printf(const char *, ...);
extern int dprintf(int, const char *, ...);

#define STANDARD_ERROR 2
#define PARTS 9u       /* of a meaning, before its digits */
#define MOST_DIGITS 16 /* that are laid; a count of more is the writer's to refuse */
#define MOST_WORDS 255 /* what a byte can count */
#define CHARGE_PARTS 5u

static void print_bytes(const uint8_t *bytes, size_t count) {
    for (size_t i = 0; i < count; i++)
        printf(i == 0 ? "%u" : " %u", (unsigned)bytes[i]);
    printf("\n");
}

static int refused(uint32_t answer) {
    dprintf(STANDARD_ERROR, "refused: %u, %s\n", (unsigned)answer, coast_answer_words(answer));
    return FAILED;
}

/* The meaning's bytes, of its parts and digits. */
static void lay_meaning(const uint32_t *parts, const uint32_t *digits, size_t count, uint8_t *meaning) {
    static const size_t places[PARTS] = {COAST_AT_ADDRESS, COAST_AT_SENDER, COAST_AT_FIRST, COAST_AT_SECOND, COAST_AT_FIELD_KIND,
        COAST_AT_FIELD, COAST_AT_FIELD + 1, COAST_AT_FIELD + 2, COAST_AT_END};
    coast_put_number(meaning + places[0], parts[0]);
    coast_put_number(meaning + places[1], parts[1]);
    for (size_t i = 2; i < PARTS; i++)
        meaning[places[i]] = (uint8_t)parts[i];
    meaning[COAST_AT_DIGIT_COUNT] = (uint8_t)count;
    for (size_t i = 0; i < count && i < MOST_DIGITS; i++)
        meaning[COAST_AT_DIGITS + i] = (uint8_t)digits[i];
}

static int write_sequence(char **words, size_t count) {
    uint32_t parts[PARTS], digits[MOST_WORDS];
    uint8_t meaning[COAST_MEANING_SIZE] = {0}, symbols[COAST_LONGEST_SEQUENCE];
    if (count < PARTS || count - PARTS > MOST_WORDS || !read_numbers(words, 2, UINT32_MAX, parts) ||
        !read_numbers(words + 2, PARTS - 2, UINT8_MAX, parts + 2) ||
        !read_numbers(words + PARTS, count - PARTS, UINT8_MAX, digits))
        return WRONG_USAGE;
    lay_meaning(parts, digits, count - PARTS, meaning);
    uint32_t written = coast_write_sequence(meaning, sizeof meaning, symbols, sizeof symbols);
    if (coast_answer(written) != COAST_ANSWER_DONE)
        return refused(coast_answer(written));
    print_bytes(symbols, coast_count(written));
    return 0;
}

static int read_sequence(char **words, size_t count) {
    uint32_t numbers[MOST_WORDS];
    uint8_t meaning[COAST_MEANING_SIZE], symbols[MOST_WORDS];
    if (count > MOST_WORDS || !read_numbers(words, count, UINT8_MAX, numbers))
        return WRONG_USAGE;
    for (size_t i = 0; i < count; i++)
        symbols[i] = (uint8_t)numbers[i];
    uint32_t answer = coast_read_sequence(symbols, count, meaning, sizeof meaning);
    if (answer != COAST_ANSWER_DONE)
        return refused(answer);
    printf("%09u %09u %u %u %u %u %u %u %u ", (unsigned)coast_number_at(meaning + COAST_AT_ADDRESS),
        (unsigned)coast_number_at(meaning + COAST_AT_SENDER), (unsigned)meaning[COAST_AT_FIRST],
        (unsigned)meaning[COAST_AT_SECOND], (unsigned)meaning[COAST_AT_FIELD_KIND], (unsigned)meaning[COAST_AT_FIELD],
        (unsigned)meaning[COAST_AT_FIELD + 1], (unsigned)meaning[COAST_AT_FIELD + 2], (unsigned)meaning[COAST_AT_END]);
    print_bytes(meaning + COAST_AT_DIGITS, meaning[COAST_AT_DIGIT_COUNT]);
    print_heard(symbols, count);
    printf("\n");
    return 0;
}

static int lay_charge(char **words, size_t count) {
    uint32_t numbers[CHARGE_PARTS];
    uint8_t payload[4u * CHARGE_PARTS];
    if (count != CHARGE_PARTS || !read_numbers(words, count, UINT32_MAX, numbers))
        return WRONG_USAGE;
    for (size_t i = 0; i < CHARGE_PARTS; i++)
        coast_put_number(payload + 4 * i, numbers[i]);
    print_bytes(payload, sizeof payload);
    return 0;
}

static const struct order orders[] = {{"write", write_sequence}, {"read", read_sequence}, {"charge", lay_charge}};

int main(int count, char **words) {
    return follow(orders, sizeof orders / sizeof orders[0], count, words);
}
