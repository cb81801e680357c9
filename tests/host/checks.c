#include "checks.h"

extern int printf(const char *, ...);

static uint32_t checks, failures;

void want(const char *what, uint32_t got, uint32_t wanted) {
    checks++;
    if (got == wanted)
        return;
    failures++;
    printf("host: %s: got %u, wanted %u\n", what, (unsigned)got, (unsigned)wanted);
}

void want_true(const char *what, bool got) {
    want(what, got ? 1u : 0u, 1u);
}

bool all_as_wanted(void) {
    printf("host: %u checks, %u failed\n", (unsigned)checks, (unsigned)failures);
    return failures == 0u;
}

bool equal(const uint8_t *a, const uint8_t *b, size_t count) {
    for (size_t i = 0; i < count; i++)
        if (a[i] != b[i])
            return false;
    return true;
}

void copy(uint8_t *to, const uint8_t *from, size_t count) {
    for (size_t i = 0; i < count; i++)
        to[i] = from[i];
}
