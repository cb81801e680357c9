/* A station in lent bytes: the places of include/coast.h. */
#ifndef SECOND_LAYOUT_H
#define SECOND_LAYOUT_H

#include "station.h"

#define STATION_BYTES 1791u
#define LAYOUT_VERSION 4u
#define SLOT_BYTES 49u
#define WAITING_BYTES 31u

enum layout {
    VERSION_AT = 0,
    CLOCK_AT = 1,
    IDENTITY_AT = 5,
    SLOT_COUNT_AT = 9,
    WAITING_COUNT_AT = 10,
    LAST_NUMBER_AT = 11,
    SLOTS_AT = 15,
    QUEUE_AT = 799,
    /* in a slot */
    PHASE_AT = 0,
    TIME_AT = 1,
    CARRIER_AT = 5,
    CARRIER_DUE_AT = 6,
    TOLD_AT = 10,
    HOURS_AT = 11,
    MINUTES_AT = 12,
    SECONDS_AT = 13,
    CHANNEL_AT = 14,
    NUMBER_AT = 18,
    SLOT_REQUEST_AT = 22,
    /* in a waiting ship */
    WAITING_DUE_AT = 0,
    WAITING_REQUEST_AT = 4,
    /* in a stored request */
    SHIP_AT = 0,
    CALLED_AT = 4,
    MODE_AT = 8,
    SECOND_AT = 9,
    COUNT_AT = 10,
    DIGITS_AT = 11
};

/* Lays down what the station's phases and counts use; the other bytes stay. */
void second_lay(uint8_t *bytes, const struct station *station);

#endif
