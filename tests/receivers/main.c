/* Holds the finders on trial against the second implementation's, up to the first difference; prints what was tried, and fails
 * where one differs, or where an outcome or a length was met too seldom.
 * Arguments: how many rounds by chance, and from which seed; the same ones give the same run. */
#include "receivers.h"

extern int printf(const char *, ...);
extern unsigned long strtoul(const char *text, char **end, int base);

#define ROUNDS 3000000u
#define SEED 70u

static bool part_by_chance_agrees(uint32_t rounds) {
    bool agree = find_by_chance(rounds);
    printf("compare: by chance: %u calls%s\n", (unsigned)searches.calls, agree ? "" : ", the last differs");
    return agree;
}

/* The parts that are the same in every run. */
static bool fixed_parts_agree(void) {
    static const struct {
        const char *what;
        bool (*part)(void);
    } parts[] = {
        {"P1 at every place of a second of noise", find_at_each_place},
        {"every length at every place to 60", find_each_length},
        {"P1 to P6, each symbol replaced", replace_each_symbol_heard},
        {"P1 cut everywhere", cut_everywhere},
        {"two at every distance", find_two_at_each_distance},
        {"behind strays at every distance", find_behind_strays},
        {"one in each, at every two places to 40", find_in_both},
        {"each byte 0 to 64 times", repeat_each_byte},
        {"over 65,536 bytes", find_in_long_ones},
    };
    for (size_t i = 0; i < sizeof parts / sizeof parts[0]; i++) {
        uint32_t before = searches.calls;
        bool agree = parts[i].part();
        printf(
            "compare: %s: %u calls%s\n", parts[i].what, (unsigned)(searches.calls - before), agree ? "" : ", the last differs");
        if (!agree)
            return false;
    }
    return true;
}

/* The whole run on one trial. */
static bool agrees(const struct finder_trial *trial, uint32_t rounds, uint32_t seed) {
    finder_trial = trial;
    searches = lengths = (struct tally){0};
    begin_chance(seed);
    bool agree = part_by_chance_agrees(rounds) && fixed_parts_agree();
    printf("compare: %s %s\n", trial->name, agree ? "agrees" : "differs");
    return agree;
}

static bool tried_enough(void) {
    static const uint8_t of_searches[] = {0, 1, 54}, of_lengths[] = {21, 22, 23, 24, 25, 26, 27, 28};
    bool enough = report("searches, 0 found in the first, 1 in the second,", &searches, of_searches, sizeof of_searches);
    return report("sequences found, by their lengths,", &lengths, of_lengths, sizeof of_lengths) && enough;
}

int main(int count, char **words) {
    uint32_t rounds = count > 1 ? (uint32_t)strtoul(words[1], NULL, 10) : ROUNDS;
    uint32_t seed = count > 2 ? (uint32_t)strtoul(words[2], NULL, 10) : SEED;
    bool all = true;
    for (size_t i = 0; i < finder_trial_count; i++)
        all = agrees(finder_trials[i], rounds, seed) && all;
    return all && tried_enough() ? 0 : 1;
}
