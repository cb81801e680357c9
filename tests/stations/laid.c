/* The parts of a station in bytes, and the numbers in them. */
#include "stations.h"

size_t slot_begins(uint32_t slot) {
    return SLOTS_AT + (size_t)slot * SLOT_BYTES;
}

size_t waiting_begins(uint32_t place) {
    return QUEUE_AT + (size_t)place * WAITING_BYTES;
}

size_t station_ends(void) {
    return waiting_begins(MOST_WAITING);
}

void put_number(uint8_t *bytes, uint32_t number, size_t width) {
    for (size_t i = 0; i < width; i++)
        bytes[i] = (uint8_t)(number >> (8u * i) & 255u);
}

uint32_t number_at(const uint8_t *bytes, size_t width) {
    uint32_t number = 0;
    for (size_t i = 0; i < width; i++)
        number |= (uint32_t)bytes[i] << (8u * i);
    return number;
}
