/* Writes one lively script, the same for the same seed, on standard output, and on standard error how often each situation
 * of document 01, and of nos. 1, 2 and 4 of 02, was reached in it. */
#include <stdio.h>
#include <stdlib.h>

#include "rehearsal.h"

/* Weights: call, again, answer, exchange, line, carrier, end, time, hand, stray, leap, noise, ashore. */
static const struct mood moods[] = {
    {"a busy day", 16, 4, 48, 1200, {20, 10, 30, 12, 20, 14, 14, 12, 4, 3, 1, 2, 8}, 12, false},
    {"few ships", 3, 2, 6, 600, {14, 16, 26, 14, 22, 22, 16, 14, 4, 2, 2, 1, 9}, 16, false},
    {"a crowd", 2, 40, 60, 1000, {70, 20, 12, 5, 8, 6, 5, 3, 2, 2, 0, 1, 4}, 20, false},
    {"long talks", 2, 2, 5, 1000, {10, 4, 26, 10, 26, 6, 18, 6, 2, 1, 17, 1, 4}, 20, false},
    {"callers ashore", 2, 2, 6, 1000, {10, 6, 34, 6, 12, 14, 8, 12, 2, 2, 1, 1, 30}, 8, false},
    {"callers and a queue", 1, 2, 4, 1000, {24, 10, 36, 2, 8, 18, 4, 14, 1, 1, 0, 1, 26}, 24, false},
    {"the limit", 4, 2, 40, 250, {20, 10, 24, 12, 18, 12, 12, 10, 5, 2, 1, 2, 8}, 8, true},
    {"bad sequences", 4, 3, 12, 900, {16, 10, 24, 10, 14, 10, 12, 8, 6, 12, 1, 12, 8}, 2, false},
};

int main(int argc, char **argv) {
    const struct mood *mood;
    if (argc != 2) {
        fprintf(stderr, "generate SEED\n");
        return 2;
    }
    begin_chance(strtoull(argv[1], NULL, 10));
    mood = &moods[chance(sizeof moods / sizeof moods[0])];
    stage.lines_left = mood->lines / 2u + chance(mood->lines);
    open_station(mood);
    if (mood->late)
        pass_time(TIME_LIMIT - chance(one_in(2) ? 20000u : 400u));
    while (stage.lines_left > 0u) {
        if (one_in(200))
            play_set_up();
        make_move(mood);
    }
    end_script();
    print_situations();
    return 0;
}
