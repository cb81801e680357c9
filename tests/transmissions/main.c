/* Holds the writers and readers of characters and transmissions on trial against the second implementation's, up to the first
 * difference; prints what was tried, and fails where one differs or an answer was given too seldom.
 * Arguments: how many rounds by chance, and from which seed; the same ones give the same run. */
#include "transmissions.h"

extern int printf(const char *, ...);
extern unsigned long strtoul(const char *text, char **end, int base);

#define ROUNDS 900000u
#define SEED 493u

static uint32_t calls_so_far(void) {
    return read_calls.calls + write_calls.calls + character_calls.calls;
}

static bool parts_by_chance_agree(uint32_t rounds) {
    uint32_t before = calls_so_far();
    bool agree = read_transmissions(rounds) && write_lists(rounds) && read_strays(rounds / 8u);
    printf("compare: by chance: %u calls%s\n", (unsigned)(calls_so_far() - before), agree ? "" : ", the last differs");
    return agree;
}

/* The parts that are the same in every run. */
static bool fixed_parts_agree(void) {
    static const struct {
        const char *what;
        bool (*part)(void);
    } parts[] = {
        {"every number a character and a symbol", try_each_number},
        {"P1 on the air, each character replaced", replace_each_character},
        {"each way to lose phasing", keep_each_phasing},
        {"cut at every character at either end", cut_each_length},
        {"every two characters spoiled", spoil_each_two},
        {"an end at every place", end_at_each_place},
        {"reading, rooms of 0 to 64", try_each_room},
        {"over 65,536 characters", read_long_ones},
        {"writing, lengths 0 to 40, rooms of 0 to 200", write_each_length},
        {"P1 to P6 written, each symbol replaced", write_each_symbol},
    };
    for (size_t i = 0; i < sizeof parts / sizeof parts[0]; i++) {
        uint32_t before = calls_so_far();
        bool agree = parts[i].part();
        printf(
            "compare: %s: %u calls%s\n", parts[i].what, (unsigned)(calls_so_far() - before), agree ? "" : ", the last differs");
        if (!agree)
            return false;
    }
    return true;
}

/* The whole run on one trial. */
static bool agrees(const struct air_trial *trial, uint32_t rounds, uint32_t seed) {
    air_trial = trial;
    read_calls = write_calls = character_calls = (struct tally){0};
    begin_chance(seed);
    bool agree = parts_by_chance_agree(rounds) && fixed_parts_agree();
    printf("compare: %s %s\n", trial->name, agree ? "agrees" : "differs");
    return agree;
}

static bool tried_enough(void) {
    static const uint8_t of_reads[] = {0, 21, 51, 52, 53}, of_writes[] = {0, 11, 12, 21}, of_characters[] = {0, 1};
    bool reads_enough = report("reads of a transmission", &read_calls, of_reads, sizeof of_reads);
    bool writes_enough = report("writes of a transmission", &write_calls, of_writes, sizeof of_writes);
    return report("characters read and written, 1 where there is none,", &character_calls, of_characters, sizeof of_characters) &&
           reads_enough && writes_enough;
}

int main(int count, char **words) {
    uint32_t rounds = count > 1 ? (uint32_t)strtoul(words[1], NULL, 10) : ROUNDS;
    uint32_t seed = count > 2 ? (uint32_t)strtoul(words[2], NULL, 10) : SEED;
    bool all = true;
    for (size_t i = 0; i < air_trial_count; i++)
        all = agrees(air_trials[i], rounds, seed) && all;
    return all && tried_enough() ? 0 : 1;
}
