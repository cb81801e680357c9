/* How often each answer was given. */
#include "compare.h"

extern int printf(const char *, ...);

/* Fewer of an answer than this would say that the run no longer tries what it is for. */
#define ENOUGH 1000u

void count_answer(struct tally *tally, uint32_t returned) {
    uint32_t answer = returned & 255u;
    tally->calls++;
    if (answer <= MOST_ANSWER)
        tally->answers[answer]++;
}

bool report(const char *what, const struct tally *tally, const uint8_t *wanted, size_t count) {
    bool enough = true;
    printf("compare: %u %s agree; answers", (unsigned)tally->calls, what);
    for (size_t i = 0; i < count; i++) {
        uint32_t times = tally->answers[wanted[i]];
        printf("%s %u: %u", i == 0u ? "" : ",", (unsigned)wanted[i], (unsigned)times);
        enough = enough && times >= ENOUGH;
    }
    printf("\n");
    if (!enough)
        printf("compare: too few of one answer\n");
    return enough;
}
