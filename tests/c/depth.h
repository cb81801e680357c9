/* How deep a call reaches into the stack: painted before, looked at after. */
#ifndef DEPTH_H
#define DEPTH_H

#include <stdint.h>

/* Gives the place from which it painted downwards. A function that its caller calls next begins there too. */
uintptr_t paint_stack(void);

/* How many bytes below that place were written to since. */
unsigned touched_below(uintptr_t top);

#endif
