/* What a station hears and what the library hands out, in sentences; the words for its numbers are those of coast_words.h. */
#ifndef WORDS_H
#define WORDS_H

#include <stddef.h>
#include <stdint.h>

/* A time in tenths, as seconds: 26.1 s. */
void print_time(uint32_t tenths);

/* An answer: done, ignored, or the refusal with its number. */
void print_answer(uint32_t answer);

/* A sequence: who says what to whom; or why it cannot be read. */
void print_heard(const uint8_t *symbols, size_t count);

/* What an action orders. */
void print_order(const uint8_t *action);

/* The same, in a line with the channel on which it is done; the channel of each slot stands in the list. */
void print_action(const uint8_t *action, const uint8_t *channels);

#endif
