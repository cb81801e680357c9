/* The stack below the caller, painted word by word. */
#include "depth.h"

#define PAINT UINT64_C(0x5a5a5a5a5a5a5a5a)
#define WORD sizeof(uint64_t)
#define SPARED 256u     /* bytes next to the painter's own frame, left alone: no depth under this is told */
#define PAINTED 131072u /* bytes below, looked at after the call */

__attribute__((noinline)) uintptr_t paint_stack(void) {
    uintptr_t top = (uintptr_t)__builtin_frame_address(0);
    for (uintptr_t depth = SPARED; depth <= PAINTED; depth += WORD)
        *(volatile uint64_t *)(top - depth) = PAINT;
    return top;
}

__attribute__((noinline)) unsigned touched_below(uintptr_t top) {
    uintptr_t depth = PAINTED;
    while (depth > SPARED && *(volatile uint64_t *)(top - depth) == PAINT)
        depth -= WORD;
    return (unsigned)depth;
}
