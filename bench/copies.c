/* The C library's memcpy and memmove, with every call counted. */
#include "bench.h"

struct copies copies;

void *memcpy(void *restrict to, const void *restrict from, size_t size);
void *memmove(void *to, const void *from, size_t size);

/* Byte by byte and volatile, so that no compiler makes a memcpy of it. */
static void *counted(void *to, const void *from, size_t size) {
    volatile uint8_t *out = to;
    const volatile uint8_t *in = from;
    copies.calls++;
    copies.bytes += size;
    bool upwards = (uintptr_t)to <= (uintptr_t)from;
    for (size_t i = 0; i < size; i++) {
        size_t at = upwards ? i : size - 1u - i;
        out[at] = in[at];
    }
    return to;
}

void *memcpy(void *restrict to, const void *restrict from, size_t size) {
    return counted(to, from, size);
}

void *memmove(void *to, const void *from, size_t size) {
    return counted(to, from, size);
}
