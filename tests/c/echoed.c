/* Reads a byte and prints it with the size of a pointer: what tests/x86_64 builds each way, with each header it may use. */
#include <stdbool.h>
#include <stddef.h>
#include <stdint.h>

extern int printf(const char *, ...);
extern int getchar(void);

int main(int argc, char **argv) {
    uint32_t byte = (uint32_t)getchar();
    size_t pointer = sizeof(void *);
    bool told = argc > 1;
    printf("%u %u %s\n", (unsigned)byte, (unsigned)pointer, told ? argv[1] : "-");
    return 0;
}
