/* A program of the classroom that is given an order and decimal numbers as its arguments. */
#ifndef ORDERS_H
#define ORDERS_H

#include <stdbool.h>
#include <stddef.h>
#include <stdint.h>

extern int fflush(void *);
extern int strcmp(const char *, const char *);

#define FAILED 1
#define WRONG_USAGE 2

struct order {
    const char *name;
    int (*done)(char **words, size_t count); /* its status */
};

/* A decimal number up to the largest; false where the word is none. */
static inline bool read_number(const char *word, uint32_t largest, uint32_t *number) {
    uint64_t read = 0;
    if (*word == '\0')
        return false;
    for (; *word != '\0'; word++) {
        if (*word < '0' || *word > '9')
            return false;
        read = read * 10u + (uint64_t)(*word - '0');
        if (read > largest)
            return false;
    }
    *number = (uint32_t)read;
    return true;
}

static inline bool read_numbers(char **words, size_t count, uint32_t largest, uint32_t *numbers) {
    for (size_t i = 0; i < count; i++)
        if (!read_number(words[i], largest, &numbers[i]))
            return false;
    return true;
}

static inline int do_order(const struct order *orders, size_t order_count, char **words, size_t count) {
    for (size_t i = 0; count > 0u && i < order_count; i++)
        if (strcmp(words[0], orders[i].name) == 0)
            return orders[i].done(words + 1, count - 1u);
    return WRONG_USAGE;
}

/* What `main` returns for its arguments. */
static inline int follow(const struct order *orders, size_t order_count, int count, char **words) {
    int status = do_order(orders, order_count, words + 1, (size_t)count - 1u);
    return fflush(NULL) == 0 ? status : FAILED;
}

#endif
