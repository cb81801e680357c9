/* Two receivers, with places and lengths worked out by hand on document 01's checked sequences. */
#include <stdio.h>
#include <string.h>
#include "receivers.h"
#include "../../c/checked.h"

#define P 24u /* symbols of each of P1 to P6 */
#define MOST_HEARD 160u
#define NONE 256u /* no length, place 0, the second receiver */

/* One receiver's bytes. */
struct heard {
    size_t size;
    uint8_t bytes[MOST_HEARD];
};
static struct heard first, second;
static int failures;

static void want(const char *what, uint64_t got, uint64_t wanted) {
    if (got == wanted)
        return;
    failures++;
    printf("%s: got %llu, wanted %llu\n", what, (unsigned long long)got, (unsigned long long)wanted);
}

static uint64_t found(void) {
    return second_find_sequence(first.bytes, first.size, second.bytes, second.size);
}

static void want_none(const char *what) {
    want(what, found(), NONE);
}

static void want_in_first(const char *what, size_t place, size_t length) {
    want(what, found(), 65536u * place + length);
}

static void want_in_second(const char *what, size_t place, size_t length) {
    want(what, found(), 65536u * place + 256u + length);
}

/* ---- what is heard ---- */

static void silence(void) {
    memset(&first, 0, sizeof first);
    memset(&second, 0, sizeof second);
}

static void add(struct heard *heard, const uint8_t *bytes, size_t count) {
    memcpy(heard->bytes + heard->size, bytes, count);
    heard->size += count;
}

static void add_same(struct heard *heard, uint8_t byte, size_t count) {
    memset(heard->bytes + heard->size, byte, count);
    heard->size += count;
}

/* P1 to P6, by their numbers. */
static void add_P(struct heard *heard, size_t which) {
    add(heard, checked[which - 1u], P);
}

/* The first receiver hears P1 alone, with another symbol at this place; the second hears nothing. */
static void hear_P1_with(size_t place, uint8_t symbol) {
    silence();
    add_P(&first, 1);
    first.bytes[place] = symbol;
}

/* ---- the tries ---- */

static void try_alone(void) {
    for (size_t which = 1; which <= 6u; which++) {
        silence();
        add_P(&first, which);
        want_in_first("in the first alone", 0, P);
        add_P(&second, which);
        want_in_first("in both", 0, P);
        first.size = 0;
        want_in_second("in the second alone", 0, P);
        second.size = P - 1u;
        want_none("the check is not there any more");
    }
    want("P2 behind its format", second_find_sequence(checked[1] + 1, P - 1u, NULL, 0), NONE);
    want("the second from its second byte", second_find_sequence(NULL, 0, checked[1] + 1, P - 1u), NONE);
    want("the same bytes for both", second_find_sequence(checked[0], P, checked[0], P), 24);
    want("the second has the end of the first's", second_find_sequence(checked[0], P, checked[0] + 4, P - 4u), 24);
}

static void try_nothing(void) {
    silence();
    want("null pointers", second_find_sequence(NULL, 0, NULL, 0), 256);
    want("null, then P1", second_find_sequence(NULL, 0, checked[0], P), 280);
    want("P1, then null", second_find_sequence(checked[0], P, NULL, 0), 24);
    want_none("two empty ones");
    first.size = second.size = 120;
    want_none("zeros");
    silence();
    add_same(&first, 123, 120);
    add_same(&second, 123, 20);
    want_none("formats alone");
    second.size = 1;
    want_none("a single format");
}

/* 120 bytes, a second of them. */
static void try_places(void) {
    for (size_t place = 0; place <= 120u - P; place++) {
        silence();
        add_same(&first, 200, place);
        add_P(&first, 4);
        add_same(&first, 123, 120u - P - place);
        want_in_first("among strays", place, P);
        second = first;
        first.bytes[place] = 122;
        want_in_second("no format in the first", place, P);
    }
    silence();
    add_same(&first, 7, 96);
    add_P(&first, 1);
    want_in_first("at the very end", 96, P);
    first.size = 119;
    want_none("all but the check");
    first.size = 120;
    first.bytes[119] = 105;
    want_none("another check");
}

/* Both hear one, at different places: the first receiver comes before the earlier place. */
static void try_both(void) {
    silence();
    add_same(&first, 0, 40);
    add_P(&first, 2);
    add_P(&second, 1);
    want_in_first("late in the first, early in the second", 40, P);
    first.bytes[50] = 255;
    want_in_second("one byte faded", 0, P);
    second.bytes[23] = 255;
    want_none("one in each");
    add_P(&second, 3);
    want_in_second("the second's second", 24, P);
    add_P(&first, 6);
    want_in_first("the first's second", 64, P);
}

static void try_one_behind_the_other(void) {
    silence();
    add_P(&first, 1);
    add_P(&first, 2);
    want_in_first("of two the first", 0, P);
    first.bytes[3] = 128;
    want_in_first("of two the second", 24, P);
    first.size = 47;
    want_none("one spoiled, one cut");
    silence();
    add_P(&first, 2);
    add_same(&first, 99, 1);
    add_P(&first, 1);
    first.bytes[22] = 117; /* P2's check is for 122 */
    want_in_first("one apart", 25, P);
}

/* What begins inside of another one's bytes. */
static void try_nested(void) {
    for (size_t strays = 1; strays <= 60u; strays++) {
        silence();
        add_same(&first, 123, strays);
        add_P(&first, 1);
        want_in_first("stray formats right before it", strays, P);
    }
    for (size_t kept = 0; kept < P; kept++) {
        silence();
        add(&first, checked[0], kept);
        add_P(&first, 2);
        add(&first, checked[0] + kept, P - kept);
        want_in_first("P2 in the middle of P1", kept, P);
        second = first;
        first.size = kept + P - 1u;
        want_in_second("both cut short in the first", kept, P);
    }
    silence();
    add(&first, checked[0], 23);
    add(&first, checked[1] + 1, 23);
    want_none("P2 without its format, where P1's check should be");
}

/* 34 changed to 49 changes the check by 19, from 104 to 123: there the next one may begin. */
static void try_overlapping(void) {
    silence();
    add_P(&first, 1);
    first.bytes[21] = 49;
    first.bytes[23] = 123;
    want_in_first("a check that is a format", 0, P);
    add(&first, checked[1] + 1, 23);
    want_in_first("and the next one begins there", 0, P);
    first.bytes[0] = 124;
    want_in_first("of the two the second", 23, P);
    first.size = 46;
    want_none("without its check");
    second = first;
    second.size = 47;
    want_in_second("with it, in the second", 23, P);
}

/* 126 changed to 123, as second telecommand, changes the check by 5, from 104 to 109. */
static void try_formats_inside(void) {
    hear_P1_with(13, 123);
    want_none("another check");
    first.bytes[23] = 109;
    want_in_first("123 as second telecommand", 0, P);
    first.bytes[0] = 0;
    want_none("nothing begins there");
    hear_P1_with(3, 123);
    first.bytes[23] = 18; /* 104, by 1 and by 123 */
    want_none("123 in an identity");
    add_P(&first, 5);
    want_in_first("and one behind it", 24, P);
    hear_P1_with(19, 123);
    first.bytes[23] = 36; /* 104, by 55 and by 123 */
    want_none("123 for a digit pair");
}

/* P1's first 17 symbols have the exclusive-or 104; with 106 and 117 it is 119. */
static void try_lengths(void) {
    static const uint8_t behind[10] = {1, 2, 3, 4, 5, 6, 7, 8, 9, 10}; /* pairs */
    static const uint8_t checks[10] = {119, 118, 116, 119, 115, 118, 112, 119, 127, 118};
    for (size_t pairs = 0; pairs <= 9u; pairs++) {
        uint8_t tail[] = {117, checks[pairs], 117, 122, 127, 117};
        silence();
        add(&first, checked[0], 17);
        add_same(&first, 106, 1);
        add(&first, behind, pairs);
        add(&first, tail, sizeof tail);
        first.size = second.size = 20u + pairs;
        if (pairs < 1u || pairs > 8u) {
            want_none("no pair, or nine");
            continue;
        }
        want_in_first("one to eight pairs, no more bytes", 0, 20u + pairs);
        first.size += 4;
        want_in_first("one to eight pairs, ends behind", 0, 20u + pairs);
        second = first;
        first.size = 19u + pairs;
        want_in_second("a byte short in the first", 0, 20u + pairs);
        second.size = 19u + pairs;
        want_none("a byte short in both");
    }
}

/* The reader's refusals, the check put right where it can be. */
static void try_refused(void) {
    static const struct {
        const char *what;
        uint8_t place, symbol, check;
    } spoiled[] = {{"12, the format and 128", 0, 251, 104}, {"12, the check and 128", 5, 40, 232}, {"13", 21, 35, 104},
        {"14, format 122", 0, 122, 105}, {"15, a final 1", 5, 41, 105}, {"16, category 101", 6, 101, 105},
        {"17, telecommand 102", 12, 102, 107}, {"18, a 127 in the field", 14, 127, 105},
        {"19, neither odd nor even", 17, 104, 105}, {"19, odd, with 10 before it", 18, 10, 103}, {"20, end 116", 22, 116, 105}};
    for (size_t i = 0; i < sizeof spoiled / sizeof spoiled[0]; i++) {
        hear_P1_with(spoiled[i].place, spoiled[i].symbol);
        first.bytes[23] = spoiled[i].check;
        want_none(spoiled[i].what);
        add_P(&second, 3);
        want_in_second(spoiled[i].what, 0, P);
    }
}

/* Bytes of just this size, around which sanitizers keep watch. */
static void try_exact_sizes(void) {
    uint8_t of_17[17], of_20[20], of_23[23], of_27[27];
    memcpy(of_17, checked[0], sizeof of_17);
    memcpy(of_20, checked[0], sizeof of_20);
    memcpy(of_23, checked[0], sizeof of_23);
    memset(of_27, 0, sizeof of_27);
    memcpy(of_27, checked[0], 21);
    want("17 and 20", second_find_sequence(of_17, sizeof of_17, of_20, sizeof of_20), NONE);
    want("23 and 27", second_find_sequence(of_23, sizeof of_23, of_27, sizeof of_27), NONE);
    memcpy(of_27 + 3, checked[0], P);
    want("24 at the end of 27", second_find_sequence(of_23, sizeof of_23, of_27, sizeof of_27), 65536u * 3u + 280u);
}

/* Places that have more than sixteen bits. */
static void try_far_places(void) {
    static uint8_t bytes[140000];
    static const size_t places[] = {65535, 65536, 70000, 131072, 139976};
    for (size_t i = 0; i < sizeof places / sizeof places[0]; i++) {
        memset(bytes, 123, sizeof bytes);
        memcpy(bytes + places[i], checked[0], P);
        want("far in the first", second_find_sequence(bytes, sizeof bytes, NULL, 0), 65536u * (uint64_t)places[i] + 24u);
        want("far in the second", second_find_sequence(NULL, 0, bytes, sizeof bytes), 65536u * (uint64_t)places[i] + 280u);
    }
    want("cut by one", second_find_sequence(bytes, sizeof bytes - 1u, NULL, 0), NONE);
}

int main(void) {
    try_alone();
    try_nothing();
    try_places();
    try_both();
    try_one_behind_the_other();
    try_nested();
    try_overlapping();
    try_formats_inside();
    try_lengths();
    try_refused();
    try_exact_sizes();
    try_far_places();
    return failures == 0 ? 0 : 1;
}
