/* The second implementation's reader and writer on lent bytes, with the very calls of include/coast.h. */
#ifndef SECOND_BYTES_H
#define SECOND_BYTES_H

#include <stddef.h>
#include <stdint.h>

uint32_t second_read_bytes(const uint8_t *symbols, size_t count, uint8_t *meaning, size_t size);
uint32_t second_write_bytes(const uint8_t *meaning, size_t size, uint8_t *room, size_t room_size);

#endif
