#include "bench.h"

extern int printf(const char *, ...);

struct moment {
    long seconds, nanoseconds;
};
extern int clock_gettime(int clock, struct moment *moment);
#define OWN_CLOCK 2 /* of Linux: the time that this process has had a processor */

#define RUNS 7u   /* the median of which is told */
#define ROUNDS 5u /* of each run, the quickest of which counts */

static uint64_t now(void) {
    struct moment moment = {0, 0};
    clock_gettime(OWN_CLOCK, &moment);
    return (uint64_t)moment.seconds * 1000000000u + (uint64_t)moment.nanoseconds;
}

/* Measures both sides in turn, the order changing from round to round. */
static void measure_both(work *all, uint64_t *quickest) {
    for (uint32_t i = 0; i < SIDES * ROUNDS; i++) {
        enum side side = (i + i / 2u) % 2u == 0u ? LIBRARY : SECOND;
        uint64_t begun = now();
        (void)all(side);
        uint64_t took = now() - begun;
        quickest[side] = took < quickest[side] ? took : quickest[side];
    }
}

/* Puts a number among so many that stand in order. */
static void insert(unsigned *sorted, uint32_t count, unsigned number) {
    for (; count > 0u && sorted[count - 1u] > number; count--)
        sorted[count] = sorted[count - 1u];
    sorted[count] = number;
}

static void print_hundredths(const char *before, unsigned number) {
    printf("%s%u.%02u", before, number / 100u, number % 100u);
}

static void print_nanoseconds(const char *before, uint64_t quickest, uint32_t pieces) {
    uint64_t tenths = quickest * 10u / pieces;
    printf("%s%u.%u ns", before, (unsigned)(tenths / 10u), (unsigned)(tenths % 10u));
}

bool time_both(const char *what, work *all, uint32_t pieces) {
    uint64_t quickest[SIDES] = {UINT64_MAX, UINT64_MAX};
    unsigned ratios[RUNS];
    if (all(LIBRARY) != all(SECOND)) {
        printf("bench: %s: the two differ\n", what);
        return false;
    }
    for (uint32_t i = 0; i < RUNS; i++) {
        uint64_t run[SIDES] = {UINT64_MAX, UINT64_MAX};
        measure_both(all, run);
        insert(ratios, i, (unsigned)(run[LIBRARY] * 100u / run[SECOND]));
        for (uint32_t side = 0; side < SIDES; side++)
            quickest[side] = run[side] < quickest[side] ? run[side] : quickest[side];
    }
    print_hundredths("", ratios[RUNS / 2u]);
    print_hundredths(" (", ratios[0]);
    print_hundredths(" to ", ratios[RUNS - 1u]);
    printf(")  %s", what);
    print_nanoseconds(": library ", quickest[LIBRARY], pieces);
    print_nanoseconds(", second implementation ", quickest[SECOND], pieces);
    printf("\n");
    return true;
}
