/* The first sequence in what two receivers heard, by the library, for lessons/mast: decimal numbers in its arguments and its output.
 *
 *   mast find COUNT [BYTE]...   so many bytes are the first receiver's, those behind them the second's. The answer; where one was found
 *                               its receiver, place, length and symbols too; below, the answer in words, and what the symbols say
 *
 * Status 2 where a number does not fit. */
#include <coast_words.h>
#include <words.h>
#include "orders.h"

extern int printf(const char *, ...);

#define MOST_BYTES 1000u /* of both receivers together */

static void print_found(uint64_t found, const uint8_t *symbols) {
    printf(" %d %u %u", coast_found_receiver(found), (unsigned)coast_found_place(found), (unsigned)coast_found_length(found));
    for (size_t i = 0; i < coast_found_length(found); i++)
        printf(" %u", (unsigned)symbols[i]);
}

static int find_sequence(char **words, size_t count) {
    uint32_t first_size, numbers[MOST_BYTES];
    uint8_t heard[MOST_BYTES];
    size_t size = count == 0u ? 0u : count - 1u;
    if (count == 0u || size > MOST_BYTES || !read_number(words[0], (uint32_t)size, &first_size) ||
        !read_numbers(words + 1, size, UINT8_MAX, numbers))
        return WRONG_USAGE;
    for (size_t i = 0; i < size; i++)
        heard[i] = (uint8_t)numbers[i];
    const uint8_t *receivers[] = {heard, heard + first_size};
    uint64_t found = coast_find_sequence(receivers[0], first_size, receivers[1], size - first_size);
    const uint8_t *symbols = receivers[coast_found_receiver(found)] + coast_found_place(found);
    bool done = coast_found_answer(found) == COAST_ANSWER_DONE;
    printf("%u", (unsigned)coast_found_answer(found));
    if (done)
        print_found(found, symbols);
    printf("\n");
    print_answer(coast_found_answer(found));
    printf("\n");
    if (done) {
        print_heard(symbols, coast_found_length(found));
        printf("\n");
    }
    return 0;
}

static const struct order orders[] = {{"find", find_sequence}};

int main(int count, char **words) {
    return follow(orders, sizeof orders / sizeof orders[0], count, words);
}
