/* Bytes to lend to the library: a page for each use, between two pages that stop the program where it touches them. */
#include "lent.h"

#define PAGE 4096u

extern void *mmap(void *at, size_t length, int protection, int flags, int file, long offset);
extern int mprotect(void *at, size_t length, int protection);

#define READ_AND_WRITE 3
#define NO_ACCESS 0
#define PRIVATE_AND_ANONYMOUS 0x22 /* of Linux on x86-64 */

/* Bytes at either end of a page that are filled and looked at. */
static const size_t watched_of[LENT_USES] = {
    [FOR_SYMBOLS] = 128, [FOR_MEANING] = 128, [FOR_ROOM] = 128, [FOR_ACTIONS] = 512, [FOR_STATION] = 2048};
static uint8_t *pages[LENT_USES];

bool set_up_lent(void) {
    for (size_t i = 0; i < LENT_USES; i++) {
        uint8_t *three = mmap(NULL, 3u * PAGE, NO_ACCESS, PRIVATE_AND_ANONYMOUS, -1, 0);
        if (three == (uint8_t *)(uintptr_t)-1 || mprotect(three + PAGE, PAGE, READ_AND_WRITE) != 0)
            return false;
        pages[i] = three + PAGE;
    }
    return true;
}

uint8_t *lend(enum lent_for what, size_t size, bool at_end, uint8_t filling) {
    size_t count = watched_of[what];
    uint8_t *watched = at_end ? pages[what] + PAGE - count : pages[what];
    for (size_t i = 0; i < count; i++)
        watched[i] = filling;
    return at_end ? watched + count - size : watched;
}

static bool all_have(const uint8_t *from, const uint8_t *to, uint8_t value) {
    while (from < to)
        if (*from++ != value)
            return false;
    return true;
}

bool left_alone(enum lent_for what, const uint8_t *bytes, size_t from, uint8_t filling) {
    const uint8_t *page = pages[what];
    const uint8_t *watched = bytes == page ? page : page + PAGE - watched_of[what];
    return all_have(watched, bytes, filling) && all_have(bytes + from, watched + watched_of[what], filling);
}
