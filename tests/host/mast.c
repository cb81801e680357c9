/* The host below a mast with two receivers: the first sequence in what they heard, through the header. */
#include "../../include/coast_words.h"
#include "../c/checked.h"
#include "checks.h"
#include "lent.h"

#define BYTES_OF_A_SECOND 120u

enum receiver { FIRST_RECEIVER, SECOND_RECEIVER };

struct heard {
    size_t size;
    uint8_t bytes[BYTES_OF_A_SECOND];
};

static const struct heard silence;

static void hear_more(struct heard *heard, const uint8_t *symbols, size_t count) {
    copy(heard->bytes + heard->size, symbols, count);
    heard->size += count;
}

static void hear_often(struct heard *heard, uint8_t byte, size_t count) {
    for (size_t i = 0; i < count; i++)
        hear_more(heard, &byte, 1);
}

/* So many symbols of a sequence behind so many bytes that were lost. */
static struct heard hear(size_t lost, const uint8_t *symbols, size_t count) {
    struct heard heard = silence;
    hear_often(&heard, COAST_NO_SYMBOL, lost);
    hear_more(&heard, symbols, count);
    return heard;
}

/* Searches lent memory, which must stay as it was, with nothing behind it that could be read or with much. */
static uint64_t find_lent(const struct heard *first, const struct heard *second, bool at_end) {
    uint8_t *a = lend(FOR_SYMBOLS, first->size, at_end, 123), *b = lend(FOR_ROOM, second->size, at_end, 123);
    copy(a, first->bytes, first->size);
    copy(b, second->bytes, second->size);
    uint64_t found = coast_find_sequence(a, first->size, b, second->size);
    want_true("what was heard stays", equal(a, first->bytes, first->size) && left_alone(FOR_SYMBOLS, a, first->size, 123));
    want_true("by both", equal(b, second->bytes, second->size) && left_alone(FOR_ROOM, b, second->size, 123));
    return found;
}

static void want_found(const char *what, uint64_t found, enum receiver receiver, size_t place, size_t length) {
    want(what, coast_found_answer(found), length == 0u ? COAST_ANSWER_NO_SEQUENCE : COAST_ANSWER_DONE);
    want(what, (uint32_t)coast_found_length(found), (uint32_t)length);
    want(what, (uint32_t)coast_found_receiver(found), receiver);
    want(what, (uint32_t)coast_found_place(found), (uint32_t)place);
    want_true("nothing else in the number", found == ((uint64_t)place << 16) + 256u * (uint64_t)receiver + length);
}

/* Document 01's own sequences, behind so many bytes, heard by the first receiver, by the second and by both. */
static void try_places(void) {
    for (size_t i = 0; i < CHECKED_COUNT; i++)
        for (size_t lost = 0; lost + CHECKED_LENGTH <= BYTES_OF_A_SECOND; lost++) {
            struct heard heard = hear(lost, checked[i], CHECKED_LENGTH), at_once = hear(0, checked[i], CHECKED_LENGTH);
            bool at_end = lost % 2u == 0u;
            want_found("by the first", find_lent(&heard, &silence, at_end), FIRST_RECEIVER, lost, CHECKED_LENGTH);
            want_found("by the second", find_lent(&silence, &heard, at_end), SECOND_RECEIVER, lost, CHECKED_LENGTH);
            want_found("by both", find_lent(&heard, &at_once, at_end), FIRST_RECEIVER, lost, CHECKED_LENGTH);
        }
}

/* One symbol faded on one aerial, and on both. */
static void try_fading(void) {
    for (size_t faded = 0; faded < CHECKED_LENGTH; faded++) {
        struct heard whole = hear(3, checked[0], CHECKED_LENGTH), spoiled = whole;
        spoiled.bytes[3u + faded] = 255;
        want_found("faded on the first", find_lent(&spoiled, &whole, true), SECOND_RECEIVER, 3, CHECKED_LENGTH);
        want_found("faded on the second", find_lent(&whole, &spoiled, true), FIRST_RECEIVER, 3, CHECKED_LENGTH);
        want_found("faded on both", find_lent(&spoiled, &spoiled, true), SECOND_RECEIVER, 0, 0);
    }
}

/* Behind strays that look like its beginning, and before another sequence and whatever stands behind that. */
static void try_among_others(void) {
    for (size_t strays = 0; strays <= 40u; strays++) {
        struct heard heard = silence;
        hear_often(&heard, checked[0][0], strays);
        hear_more(&heard, checked[0], CHECKED_LENGTH);
        hear_more(&heard, checked[1], CHECKED_LENGTH);
        hear_often(&heard, COAST_NO_SYMBOL, strays % 30u);
        want_found("among others", find_lent(&heard, &heard, strays % 2u == 0u), FIRST_RECEIVER, strays, CHECKED_LENGTH);
    }
}

/* Cut at its end, and nothing but its end. */
static void try_cuts(void) {
    for (size_t count = 0; count < CHECKED_LENGTH; count++) {
        struct heard front = hear(1, checked[0], count), rest = hear(0, checked[0] + count + 1u, CHECKED_LENGTH - count - 1u);
        want_found("cut", find_lent(&front, &rest, count % 2u == 0u), SECOND_RECEIVER, 0, 0);
    }
    want_found("null", coast_find_sequence(NULL, 0, NULL, 0), SECOND_RECEIVER, 0, 0);
    want_found(
        "null and a sequence", coast_find_sequence(NULL, 0, checked[0], CHECKED_LENGTH), SECOND_RECEIVER, 0, CHECKED_LENGTH);
    want_found("the same bytes twice", coast_find_sequence(checked[0], CHECKED_LENGTH, checked[0], CHECKED_LENGTH),
        FIRST_RECEIVER, 0, CHECKED_LENGTH);
}

/* What a host does with what was found: it reads it where it stands. */
static void try_reading(void) {
    struct heard heard = hear(40, checked[0], CHECKED_LENGTH);
    uint8_t meaning[COAST_MEANING_SIZE];
    uint64_t found = coast_find_sequence(NULL, 0, heard.bytes, heard.size);
    uint32_t read =
        coast_read_sequence(heard.bytes + coast_found_place(found), coast_found_length(found), meaning, sizeof meaning);
    want("what was found is read", read, COAST_ANSWER_DONE);
    want("its sender", coast_number_at(meaning + COAST_AT_SENDER), 200056789);
}

void try_the_mast(void) {
    try_places();
    try_fading();
    try_among_others();
    try_cuts();
    try_reading();
}
