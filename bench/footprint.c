/* What an event copies by calls of memcpy and memmove, and how deep each entry reaches into the stack: counted, not timed,
 * so the same in every run. Ends with 1 where the library reaches deeper than its header tells. */
#include "bench.h"
#include "../include/coast.h"
#include "../tests/c/depth.h"

extern int printf(const char *, ...);

#ifdef __x86_64__
#define MOST COAST_STACK_SIZE
#else
#define MOST UINT32_MAX /* the header tells of the archive alone */
#endif

static const char *const names[SIDES] = {[LIBRARY] = "library", [SECOND] = "second implementation"};

static unsigned depth_of(work *all, enum side side) {
    uintptr_t top = paint_stack();
    (void)all(side);
    return touched_below(top);
}

static unsigned depth_of_event(enum side side, uint32_t event) {
    uintptr_t top = paint_stack();
    (void)hand_in_one(side, event);
    return touched_below(top);
}

static unsigned depth_of_asking(enum side side, char letter) {
    static const struct handed nothing;
    uintptr_t top = paint_stack();
    (void)call_entry(entries_of(side), letter, &nothing, &lent);
    return touched_below(top);
}

static unsigned more(unsigned a, unsigned b) {
    return a > b ? a : b;
}

static void print_copies(enum side side) {
    copies = (struct copies){0, 0};
    (void)hand_in_all(side);
    unsigned tenths = (unsigned)(copies.calls * 10u / event_count());
    printf("copied an event, %s: %u.%u calls, %u bytes\n", names[side], tenths / 10u, tenths % 10u,
        (unsigned)(copies.bytes / event_count()));
}

/* Gives the deepest of them all. */
static unsigned print_depths(enum side side) {
    unsigned deepest[UINT8_MAX + 1u] = {0}; /* by the entry's letter */
    unsigned read = depth_of(read_all, side), written = depth_of(write_all, side);
    unsigned received = more(depth_of(read_noisy, side), depth_of(read_among_strays, side));
    unsigned sent = depth_of(write_transmissions, side),
             found = more(depth_of(find_in_seconds, side), depth_of(find_calls, side));
    unsigned all = more(more(more(read, written), more(received, sent)), found);
    for (uint32_t i = 0; i < event_count(); i++) {
        unsigned *most = &deepest[(uint8_t)letter_of(i)];
        *most = more(*most, depth_of_event(side, i));
        for (const char *letter = entry_letters; *letter != '\0'; letter++)
            if (only_asks(*letter))
                deepest[(uint8_t)*letter] = more(deepest[(uint8_t)*letter], depth_of_asking(side, *letter));
    }
    printf("stack in bytes (N next due time, K clock), %s: read %u, write %u, found %u, transmission read %u, written %u",
        names[side], read, written, found, received, sent);
    for (const char *letter = entry_letters; *letter != '\0'; letter++) {
        printf(", %c %u", *letter, deepest[(uint8_t)*letter]);
        all = more(all, deepest[(uint8_t)*letter]);
    }
    printf("\n");
    return all;
}

int main(void) {
    draw_sequences();
    draw_transmissions();
    draw_receivers();
    if (!record_events())
        return 1;
    for (enum side side = LIBRARY; side < SIDES; side++)
        print_copies(side);
    unsigned deepest = print_depths(LIBRARY);
    (void)print_depths(SECOND);
    if (deepest <= MOST)
        return 0;
    printf("the library reaches %u bytes deep, and include/coast.h tells %u\n", deepest, (unsigned)MOST);
    return 1;
}
