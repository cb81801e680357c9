/* Holds each reader and writer on trial against the second implementation's, up to the first difference; prints what was
 * tried, and fails where one differs. */
#include "compare.h"

extern int printf(const char *, ...);

/* The same run every time. */
#define SEED 689u

/* Runs one part and prints its count of calls. */
static bool run(const char *what, bool (*part)(void)) {
    uint32_t before = reads.calls + writes.calls;
    bool agree = part();
    uint32_t calls = reads.calls + writes.calls - before;
    printf("compare: %s: %u calls%s\n", what, (unsigned)calls, agree ? "" : ", the last differs");
    return agree;
}

/* The whole run on one trial. */
static bool agrees(const struct trial *trial) {
    static const uint8_t of_reads[] = {0, 11, 12, 13, 14, 15, 16, 17, 18, 19, 20, 22};
    static const uint8_t of_writes[] = {0, 15, 17, 18, 19, 20, 21, 22};
    on_trial = trial;
    reads = writes = (struct tally){0};
    begin_chance(SEED);
    if (!(run("P1 to P6, each symbol replaced", replace_each_symbol) && run("lengths 0 to 40", try_each_length) &&
            run("P1 to P6 written, each byte replaced", write_checked) && run("sequences by chance", read_by_chance) &&
            run("meanings by chance", write_by_chance) && run("two neighbours replaced", replace_neighbours)))
        return false;
    bool enough = report("reads", &reads, of_reads, sizeof of_reads);
    return report("writes", &writes, of_writes, sizeof of_writes) && enough;
}

int main(void) {
    bool all = true;
    for (size_t i = 0; i < trial_count; i++) {
        bool agree = agrees(trials[i]);
        printf("compare: %s %s\n", trials[i]->name, agree ? "agrees" : "differs");
        all = all && agree;
    }
    return all ? 0 : 1;
}
