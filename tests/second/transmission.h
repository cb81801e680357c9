/* Characters of ten units, and the transmission that carries one sequence (02, no. 3), with the very calls of include/coast.h. */
#ifndef SECOND_TRANSMISSION_H
#define SECOND_TRANSMISSION_H

#include <stddef.h>
#include <stdint.h>

/* What "none" is read as, and what a symbol over 127 is written as. */
#define NO_SYMBOL 128u
#define NO_CHARACTER 1024u

#define CHARACTER_BYTES 2u
#define LONGEST_TRANSMISSION 74u

uint32_t second_write_character(uint32_t symbol);
uint32_t second_read_character(uint32_t character);

/* 21, 11, 12, or 0 and 256 for each character; a refusal touches nothing. */
uint32_t second_write_transmission(const uint8_t *symbols, size_t count, uint8_t *room, size_t room_size);

/* 21, 51, 52, 53, or 0 and 256 for each symbol; a refusal touches nothing. */
uint32_t second_read_transmission(const uint8_t *characters, size_t size, uint8_t *room, size_t room_size);

#endif
