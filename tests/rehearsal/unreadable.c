/* Lines that get 40: each is a readable line with one thing made wrong, or no line at all. */
#include <stdio.h>
#include <string.h>

#include "rehearsal.h"

#define LONG_LINE 6000u

static char text[LONG_LINE];
static size_t length;

static void put_in(size_t at, char c) {
    memmove(text + at + 1u, text + at, length - at);
    text[at] = c;
    length++;
}

/* One of these, written with the event's letters and numbers left out. */
static void put_listed(void) {
    static const char *const listed[] = {"", " ", "S", "Q", "T", "U 1", "W 1", "T 1 2", "M 1 0 0", "T -1", "T +1", "T 1.0",
        "T 0x1", "T 4294967296", "Q 4294967296", "U 1 4294967296", "W 1 4294967296 123", "Q 1 256", "W 1 0 999",
        "T 18446744073709551617", "T 99999999999999999999999999999999", "Q 1 ", "TT 1", "5", "T1", "T 1 ", "S 002001234 ",
        "S 4294967296 26", "S 002001234 4294967296", "S 002001234  26", "s 002001234 26", "Z 1 0", "P 1", "P 1 0 0", "T\t1",
        "T 1\t", "T 1\r", "C", "C 1", "C 1 200056789", "C 1 200056789 ", "C 1 200056789 101 ", "C 4294967296 200056789 101 7",
        "C 1 4294967296 101 7", "C 1 200056789 4294967296 7", "C 1 200056789 101 4294967296", "C 1 200056789 101 7 7 "};
    const char *one = listed[chance(sizeof listed / sizeof listed[0])];
    length = strlen(one);
    memcpy(text, one, length);
}

/* "one over 200 characters": zeros that would say nothing in a shorter line. */
static void lengthen(size_t to) {
    while (length < to)
        put_in(2, '0');
}

static void put_any_bytes(void) {
    length = 1u + chance(60);
    for (size_t i = 0; i < length; i++) {
        uint8_t byte = any_byte();
        text[i] = (char)(byte == '\n' ? 0u : byte);
    }
    text[0] = '?'; /* no event's letter, whatever follows */
}

void play_unreadable(const struct event *like) {
    size_t place;
    length = put_text(text, like);
    place = 1u + (one_in(2) ? 0u : strcspn(text + 2, " ") + 1u); /* a space between fields, or the end */
    place = place < length ? place : 1u;
    switch (chance(12)) {
    case 0: put_in(0, ' '); break;
    case 1: put_in(length, ' '); break;
    case 2: put_in(place, ' '); break;
    case 3: text[place] = '\t'; break;
    case 4: put_in(length, '\r'); break;
    case 5: put_in(length, '\0'); break;
    case 6: text[0] = (char)(text[0] + 32); break;
    case 7: put_in(2, "+-.,x"[chance(5)]); break;
    case 8: lengthen(LINE_MOST + 1u); break;
    case 9: lengthen(LINE_MOST + 1u + chance(LONG_LINE - LINE_MOST - 1u)); break;
    case 10: put_any_bytes(); break;
    default: put_listed(); break;
    }
    write_text(text, length);
}
