/* The trial's calls and the second implementation's, on the same bytes, compared whole. */
#include "../second/receivers.h"
#include "receivers.h"

extern int printf(const char *, ...);

const struct finder_trial *finder_trial;
struct tally searches, lengths;

typedef uint64_t finder(const uint8_t *, size_t, const uint8_t *, size_t);

void count_search(uint64_t found) {
    uint32_t length = (uint32_t)(found & 255u);
    count_answer(&searches, length == 0u ? 54u : (uint32_t)(found >> 8 & 1u));
    if (length != 0u)
        count_answer(&lengths, length);
}

/* Every byte around is another one: a finder that looks there gives itself away. */
static struct heard elsewhere(const struct heard *one) {
    struct heard other = *one;
    for (size_t i = 0; i < one->from; i++)
        other.bytes[i] = (uint8_t)(one->bytes[i] + 101u);
    for (size_t i = one->from + one->size; i < sizeof one->bytes; i++)
        other.bytes[i] = (uint8_t)(one->bytes[i] + 101u);
    return other;
}

static bool same(const struct heard *a, const struct heard *b) {
    unsigned differ = 0;
    for (size_t i = 0; i < sizeof a->bytes; i++)
        differ |= (unsigned)(a->bytes[i] ^ b->bytes[i]);
    return differ == 0u;
}

/* What is handed in for one receiver: of no bytes, as often as not, a null pointer. */
static const uint8_t *lent(const struct heard *one, bool null) {
    return one->size == 0u && null ? NULL : one->bytes + one->from;
}

/* One call on copies of these; false where it changed a byte of them or around them. */
static bool call(finder *find, const struct heard *first, const struct heard *second, bool null, uint64_t *found) {
    struct heard copies[2] = {*first, *second};
    const struct heard *other = first == second ? copies : copies + 1;
    *found = find(lent(copies, null), first->size, lent(other, null), second->size);
    return same(copies, first) && same(copies + 1, second);
}

static void print_heard(const char *who, const struct heard *one) {
    printf("  %s (%u):", who, (unsigned)one->size);
    for (size_t i = 0; i < one->size; i++)
        printf(" %u", (unsigned)one->bytes[one->from + i]);
    printf("\n");
}

static void print_found(const char *who, uint64_t found) {
    printf("  %s: length %u, receiver bit %u, place %llu, the number %llu\n", who, (unsigned)(found & 255u),
        (unsigned)(found >> 8 & 1u), (unsigned long long)(found >> 16), (unsigned long long)found);
}

static void print_difference(const struct heard *first, const struct heard *second, const uint64_t *found, bool untouched) {
    printf("compare: the finders differ\n");
    print_found("on trial                   ", found[0]);
    print_found("on trial, other bytes round", found[1]);
    print_found("second                     ", found[2]);
    print_found("second, other bytes round  ", found[3]);
    if (!untouched)
        printf("  a byte was changed\n");
    print_heard("first receiver", first);
    print_heard("second receiver", second);
}

bool finds_agree(const struct heard *first, const struct heard *second) {
    struct heard first_elsewhere = elsewhere(first), second_elsewhere = elsewhere(second);
    const struct heard *other = first == second ? &first_elsewhere : &second_elsewhere;
    uint64_t found[4];
    bool null = one_in(2);
    bool untouched = call(finder_trial->find, first, second, null, found);
    untouched = call(finder_trial->find, &first_elsewhere, other, null, found + 1) && untouched;
    untouched = call(second_find_sequence, first, second, null, found + 2) && untouched;
    untouched = call(second_find_sequence, &first_elsewhere, other, null, found + 3) && untouched;
    count_search(found[2]);
    if (untouched && found[0] == found[2] && found[1] == found[2] && found[3] == found[2])
        return true;
    print_difference(first, second, found, untouched);
    return false;
}
