/* Faulty on purpose, where told so: what tests/c/sanitizers tries them on. Without a sanitizer it ends well. */
#include <stdint.h>

static volatile uint8_t bytes[4];

int main(int argc, char **argv) {
    volatile int shift = 31, past = 3;
    const char *fault = argc > 1 ? argv[1] : "none";
    if (fault[0] == 'u') /* undefined */
        shift = shift + 1;
    if (fault[0] == 'a') /* address */
        past = past + 1;
    return (1u << shift) + bytes[past] == 3u ? 1 : 0;
}
