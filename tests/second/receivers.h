/* The first valid sequence in what two receivers heard (02, no. 5), with the very call of include/coast.h. */
#ifndef SECOND_RECEIVERS_H
#define SECOND_RECEIVERS_H

#include <stddef.h>
#include <stdint.h>

/* The stretch that holds it, in one number: its length in bits 0 to 7, its receiver in bit 8 (0 the first), its place from bit 16
 * on. Of length 0 where neither holds one (54): "the second receiver's first zero bytes", 256. */
uint64_t second_find_sequence(const uint8_t *first, size_t first_size, const uint8_t *second, size_t second_size);

#endif
