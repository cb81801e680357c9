/* The two sides of a call: the trial's and the second implementation's, each on bytes of its own, compared whole. Whoever includes
 * this defines AREA_BYTES, the most bytes that are lent, a multiple of 8. */
#ifndef SIDES_H
#define SIDES_H

#include <stdbool.h>
#include <stddef.h>
#include <stdint.h>

extern int printf(const char *, ...);

/* Lent bytes with a margin before and behind them, which shows a call that strays; also as words, to fill and compare. */
#define MARGIN 8u
#define WORDS ((MARGIN + AREA_BYTES + MARGIN) / 8u)
struct area {
    union {
        uint8_t bytes[8u * WORDS];
        uint64_t words[WORDS];
    };
};

/* No two bytes of a word are alike, and few of an area. */
static inline void fill(struct area *area, uint8_t pattern) {
    for (size_t i = 0; i < WORDS; i++)
        area->words[i] = (0x1f3d5b79907052e4u + 0x0909090909090909u * i) ^ 0x0101010101010101u * pattern;
}

static inline bool same(const struct area *a, const struct area *b) {
    uint64_t differ = 0;
    for (size_t i = 0; i < WORDS; i++)
        differ |= a->words[i] ^ b->words[i];
    return differ == 0u;
}

static inline void lay(struct area *area, const uint8_t *bytes, size_t count) {
    for (size_t i = 0; i < count; i++)
        area->bytes[MARGIN + i] = bytes[i];
}

/* What is handed in for the lent bytes of an area: of no bytes, as often as not, a null pointer. */
static inline uint8_t *lent(struct area *area, size_t size, bool null) {
    return size == 0u && null ? NULL : area->bytes + MARGIN;
}

static inline void print_bytes(const char *what, const uint8_t *bytes, size_t count) {
    printf("  %s (%u):", what, (unsigned)count);
    for (size_t i = 0; i < count; i++)
        printf(" %u", (unsigned)bytes[i]);
    printf("\n");
}

/* What one side returned, and each byte that it changed; a place under 0 or past the end is in the margin. */
static inline void print_side(const char *who, uint32_t returned, const struct area *out, const struct area *before) {
    printf("  %s: answer %u, count %u; bytes changed:", who, (unsigned)(returned & 255u), (unsigned)(returned >> 8));
    for (size_t i = 0; i < sizeof out->bytes; i++)
        if (out->bytes[i] != before->bytes[i])
            printf(" %d:%u", (int)i - (int)MARGIN, (unsigned)out->bytes[i]);
    printf("\n");
}

/* One side of a call: what it was handed, what it handed back. */
struct side {
    struct area in, in_before, out;
    uint32_t returned;
};

/* The bytes handed in, in an area whose margins differ from side to side: a call that looks at them gives itself away. */
static inline void hand_in(struct side *side, const uint8_t *bytes, size_t count, uint8_t margins, const struct area *out) {
    fill(&side->in, margins);
    lay(&side->in, bytes, count);
    side->in_before = side->in;
    side->out = *out;
}

/* Whether both returned the same, wrote the same bytes and left what they only read; `written` is the count of bytes that
 * may be written, by what the second implementation returned. */
static inline bool sides_agree(const struct side *trial, const struct side *second, const struct area *before, size_t written) {
    struct area untouched = *before;
    lay(&untouched, second->out.bytes + MARGIN, written);
    return trial->returned == second->returned && same(&trial->out, &second->out) && same(&second->out, &untouched) &&
           same(&trial->in, &trial->in_before) && same(&second->in, &second->in_before);
}

static inline void print_difference(
    const char *what, const struct side *trial, const struct side *second, const struct area *before) {
    printf("compare: the %s differ\n", what);
    print_side("on trial", trial->returned, &trial->out, before);
    print_side("second  ", second->returned, &second->out, before);
    if (!same(&trial->in, &trial->in_before))
        printf("  on trial: the bytes handed in to be read were changed\n");
}

#endif
