/* Readable lines that are refused whatever the station is: numbers too large for what they are, lists longer than allowed. */
#include <stdio.h>
#include <string.h>

#include "rehearsal.h"

/* A list of some ninety numbers, in a line of 199, 200 or 201 characters; the last of these is unreadable. */
static void play_long_list(void) {
    char text[LINE_MOST + 2u];
    size_t wanted = LINE_MOST - 1u + chance(3), length;
    switch (chance(4)) {
    case 0: length = (size_t)sprintf(text, "S %09u", any_coast()); break;
    case 1: length = (size_t)sprintf(text, "Q %u", stage.station.clock); break;
    case 2: length = (size_t)sprintf(text, "C %u %u 101", stage.station.clock, stage.ships[0]); break;
    default: length = (size_t)sprintf(text, "W %u 0", stage.station.clock);
    }
    while (length < wanted) {
        bool digit = length + 1u == wanted; /* no room for a space and a digit */
        text[length++] = digit ? '1' : ' ';
        if (!digit)
            text[length++] = (char)('0' + (char)chance(10));
    }
    write_text(text, length);
}

/* A call from ashore with a digit that no byte holds; in the low byte of some stands a digit. */
static void play_wide_digit(void) {
    static const uint32_t wide[] = {256, 263, 300, 65536, 65541, 16777216, 4294967295u};
    char text[LINE_MOST];
    uint32_t digit = wide[chance(sizeof wide / sizeof wide[0])];
    int length = sprintf(text, "C %u %u 100 5 %u 5", stage.station.clock, stage.ships[chance(stage.ship_count)], digit);
    write_text(text, (size_t)length);
}

void play_odd(void) {
    static const char *const listed[] = {"S 002001234", "S 002001234 256", "S 002001234 282", "S 002001234 26 4294967295",
        "S 002001234 26 27 28 29", "S 4294967295 26", "S 0 26", "S 0", "T 4000000001", "T 4294967295", "Q 4000000001",
        "Q 4294967295 255", "W 4000000001 0", "W 4294967295 4294967295 255", "O 4000000001 0", "P 4000000001 0",
        "P 4294967295 4294967295", "M 4294967295 4294967295", "F 4000000001 4294967295", "C 4000000001 200056789 101 7",
        "C 4294967295 4294967295 4294967295 4294967295"};
    const char *one = listed[chance(sizeof listed / sizeof listed[0])];
    if (one_in(2))
        play_long_list();
    else if (one_in(4))
        play_wide_digit();
    else
        write_text(one, strlen(one));
}
