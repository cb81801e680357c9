/* Prints a call on which the two differ: the station field by field, the event, and what each gave. */
#include "stations.h"

extern int printf(const char *, ...);

#define MOST_TOLD 24u /* differing bytes */

/* The digits in use, and those past the count where one is not 0. */
static void tell_request(const uint8_t *bytes) {
    size_t told = MOST_DIGITS;
    while (told > bytes[COUNT_AT] && bytes[DIGITS_AT + told - 1u] == 0u)
        told--;
    printf(" ship %u calls %u, mode %u, second %u, %u digits:", (unsigned)number_at(bytes + SHIP_AT, 4),
        (unsigned)number_at(bytes + CALLED_AT, 4), (unsigned)bytes[MODE_AT], (unsigned)bytes[SECOND_AT],
        (unsigned)bytes[COUNT_AT]);
    for (size_t i = 0; i < told; i++)
        printf(" %u", (unsigned)bytes[DIGITS_AT + i]);
    printf("\n");
}

static void tell_carrier(const uint8_t *bytes) {
    printf(", carrier %u", (unsigned)bytes[CARRIER_AT]);
    if (bytes[CARRIER_AT] != 0u)
        printf(" due %u", (unsigned)number_at(bytes + CARRIER_DUE_AT, 4));
}

static void tell_told(const uint8_t *bytes) {
    printf(", told %u", (unsigned)bytes[TOLD_AT]);
    if (bytes[TOLD_AT] != 0u)
        printf(": %u %u %u", (unsigned)bytes[HOURS_AT], (unsigned)bytes[MINUTES_AT], (unsigned)bytes[SECONDS_AT]);
}

/* What its phase uses. */
static void tell_slot(uint32_t slot, const uint8_t *bytes) {
    static const char *const names[PHASES] = {"free", "offered", "ring-back", "ring-back repeated", "acknowledged", "dialling",
        "answered", "hold", "taken", "dialled out", "called", "called again", "ringing"};
    enum phase phase = (enum phase)bytes[PHASE_AT];
    printf("  slot %u: phase %u (%s), channel %u", (unsigned)slot, (unsigned)phase, phase < PHASES ? names[phase] : "none",
        (unsigned)number_at(bytes + CHANNEL_AT, 4));
    if (!stores_request(phase)) {
        printf("\n");
        return;
    }
    printf(", call %u, %s %u", (unsigned)number_at(bytes + NUMBER_AT, 4), talks(phase) ? "since" : "due",
        (unsigned)number_at(bytes + TIME_AT, 4));
    if (has_call(phase))
        tell_carrier(bytes);
    if (is_held(phase))
        tell_told(bytes);
    printf(",");
    tell_request(bytes + SLOT_REQUEST_AT);
}

static void tell_station(const uint8_t *bytes) {
    tell_head(bytes);
    for (uint32_t i = 0; i < bytes[SLOT_COUNT_AT] && i < MOST_SLOTS; i++)
        tell_slot(i, bytes + slot_begins(i));
    for (uint32_t i = 0; i < bytes[WAITING_COUNT_AT] && i < MOST_WAITING; i++) {
        printf("  waiting %u: due %u,", (unsigned)i, (unsigned)number_at(bytes + waiting_begins(i) + WAITING_DUE_AT, 4));
        tell_request(bytes + waiting_begins(i) + WAITING_REQUEST_AT);
    }
}

/* As the script writes it; N asks for the next due time, K for the clock. */
static void tell_event(const struct event *event) {
    printf("stations: the two differ at %c", event->letter);
    if (is_event(event->letter))
        printf(" %u", (unsigned)event->time);
    if (takes_slot(event->letter) || event->letter == SET_UP_LETTER)
        printf(" %u", (unsigned)event->slot);
    if (takes_ship(event->letter))
        printf(" %u %u", (unsigned)event->ship, (unsigned)event->mode);
    for (size_t i = 0; i < event->count; i++)
        printf(" %u", (unsigned)event->symbols[i]);
}

void tell_call(const struct call *call) {
    tell_event(call->event);
    printf("\n  a station of %u bytes, a room of %u\n", (unsigned)call->size, (unsigned)call->room_size);
    if (call->size >= station_ends())
        tell_station(call->station);
}

static void tell_place(size_t at) {
    if (at < SLOTS_AT || at >= station_ends())
        printf("  station's byte %u", (unsigned)at);
    else if (at < QUEUE_AT)
        printf("  byte %u of slot %u", (unsigned)((at - SLOTS_AT) % SLOT_BYTES), (unsigned)((at - SLOTS_AT) / SLOT_BYTES));
    else
        printf(
            "  byte %u of waiting %u", (unsigned)((at - QUEUE_AT) % WAITING_BYTES), (unsigned)((at - QUEUE_AT) / WAITING_BYTES));
}

static void tell_returned(const struct outcome *outcome) {
    uint64_t returned = outcome->returned;
    printf("  %s: answer %u, %u actions, waits %u, due or clock %u\n", outcome->who, (unsigned)(returned & 255u),
        (unsigned)(returned >> 8 & 255u), (unsigned)(returned >> 16 & 65535u), (unsigned)(returned >> 32));
}

void tell_outcomes(const struct call *call, const struct outcome *a, const struct outcome *b) {
    uint32_t told = 0;
    tell_returned(a);
    tell_returned(b);
    for (size_t i = 0; i < call->size && told < MOST_TOLD; i++)
        if (a->station[i] != b->station[i]) {
            tell_place(i);
            printf(": was %u, %s %u, %s %u\n", (unsigned)call->station[i], a->who, (unsigned)a->station[i], b->who,
                (unsigned)b->station[i]);
            told++;
        }
    for (size_t i = 0; i < call->room_size && told < MOST_TOLD; i++)
        if (a->room[i] != b->room[i]) {
            printf("  byte %u of action %u: %s %u, %s %u\n", (unsigned)(i % ACTION_BYTES), (unsigned)(i / ACTION_BYTES), a->who,
                (unsigned)a->room[i], b->who, (unsigned)b->room[i]);
            told++;
        }
}
