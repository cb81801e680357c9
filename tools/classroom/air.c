/* Characters and transmissions by the library, for lessons/air: decimal numbers in its arguments, decimal numbers in its output.
 *
 *   air characters [SYMBOL]...   the character of each symbol
 *   air symbols [CHARACTER]...   the symbol of each character, COAST_NO_SYMBOL where it is none's
 *   air write [SYMBOL]...        the answer and the transmission's characters; below, the answer in words
 *   air read [CHARACTER]...      the answer and the symbols; below, the answer in words, and what the symbols say
 *
 * Status 2 where a number does not fit. */
#include <coast_words.h>
#include <words.h>
#include "orders.h"

extern int printf(const char *, ...);

#define MOST_WORDS 1000u

/* Whether all words are numbers up to the largest. */
static bool read_all(char **words, size_t count, uint32_t largest, uint32_t *numbers) {
    return count <= MOST_WORDS && read_numbers(words, count, largest, numbers);
}

static int print_each(uint32_t (*entry)(uint32_t), char **words, size_t count) {
    uint32_t numbers[MOST_WORDS];
    if (!read_all(words, count, UINT32_MAX, numbers))
        return WRONG_USAGE;
    for (size_t i = 0; i < count; i++)
        printf(i == 0 ? "%u" : " %u", (unsigned)entry(numbers[i]));
    printf("\n");
    return 0;
}

static int print_characters(char **words, size_t count) {
    return print_each(coast_write_character, words, count);
}

static int print_symbols(char **words, size_t count) {
    return print_each(coast_read_character, words, count);
}

static void print_answer_below(uint32_t answer) {
    printf("\n");
    print_answer(answer);
    printf("\n");
}

static int write_transmission(char **words, size_t count) {
    uint32_t numbers[MOST_WORDS];
    uint8_t symbols[MOST_WORDS], characters[COAST_TRANSMISSION_SIZE];
    if (!read_all(words, count, UINT8_MAX, numbers))
        return WRONG_USAGE;
    for (size_t i = 0; i < count; i++)
        symbols[i] = (uint8_t)numbers[i];
    uint32_t written = coast_write_transmission(symbols, count, characters, sizeof characters);
    printf("%u", (unsigned)coast_answer(written));
    for (size_t i = 0; i < coast_count(written); i++)
        printf(" %u", (unsigned)coast_character_at(characters, i));
    print_answer_below(coast_answer(written));
    return 0;
}

static int read_transmission(char **words, size_t count) {
    uint32_t numbers[MOST_WORDS];
    uint8_t characters[MOST_WORDS * COAST_CHARACTER_SIZE], symbols[COAST_LONGEST_SEQUENCE];
    if (!read_all(words, count, UINT16_MAX, numbers))
        return WRONG_USAGE;
    for (size_t i = 0; i < count; i++)
        coast_put_character(characters, i, numbers[i]);
    uint32_t read = coast_read_transmission(characters, count * COAST_CHARACTER_SIZE, symbols, sizeof symbols);
    printf("%u", (unsigned)coast_answer(read));
    for (size_t i = 0; i < coast_count(read); i++)
        printf(" %u", (unsigned)symbols[i]);
    print_answer_below(coast_answer(read));
    if (coast_answer(read) == COAST_ANSWER_DONE) {
        print_heard(symbols, coast_count(read));
        printf("\n");
    }
    return 0;
}

static const struct order orders[] = {
    {"characters", print_characters}, {"symbols", print_symbols}, {"write", write_transmission}, {"read", read_transmission}};

int main(int count, char **words) {
    return follow(orders, sizeof orders / sizeof orders[0], count, words);
}
