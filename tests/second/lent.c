/* The second implementation's station on lent bytes, laid out as include/coast.h says. */
#include "lent.h"
#include "inside.h"
#include "layout.h"

#define NOTHING_TOLD 0u
#define DURATION_TOLD 1u

static void put_four(uint8_t *bytes, uint32_t number) {
    for (size_t i = 0; i < 4u; i++)
        bytes[i] = (uint8_t)(number >> (8u * i) & 255u);
}

static uint32_t get_four(const uint8_t *bytes) {
    uint32_t number = 0;
    for (size_t i = 4; i > 0u; i--)
        number = number << 8 | bytes[i - 1u];
    return number;
}

/* ---- from bytes: false where a mark is invalid ---- */

static bool get_request(const uint8_t *bytes, struct meaning *request) {
    request->self = get_four(bytes + SHIP_AT);
    request->address = get_four(bytes + CALLED_AT);
    request->first = bytes[MODE_AT] == 0u ? SIMPLEX : DUPLEX;
    request->second = bytes[SECOND_AT];
    request->kind = FIELD_NONE;
    request->count = bytes[COUNT_AT];
    for (size_t i = 0; i < MOST_DIGITS; i++)
        request->digits[i] = bytes[DIGITS_AT + i];
    request->end = RQ;
    return bytes[MODE_AT] <= 1u;
}

static bool get_carrier(const uint8_t *bytes, struct slot *slot) {
    slot->carrier = bytes[CARRIER_AT] == 0u ? CARRIER_PRESENT : CARRIER_ABSENT;
    if (slot->carrier == CARRIER_ABSENT)
        slot->carrier_due = get_four(bytes + CARRIER_DUE_AT);
    return bytes[CARRIER_AT] <= 1u;
}

static bool get_duration(const uint8_t *bytes, struct duration *duration) {
    duration->kind = bytes[TOLD_AT] == NOTHING_TOLD ? FIELD_NONE : FIELD_DURATION;
    if (duration->kind == FIELD_DURATION) {
        duration->hours = bytes[HOURS_AT];
        duration->minutes = bytes[MINUTES_AT];
        duration->seconds = bytes[SECONDS_AT];
    }
    return bytes[TOLD_AT] <= DURATION_TOLD;
}

static bool get_slot(const uint8_t *bytes, struct slot *slot) {
    bool known = bytes[PHASE_AT] < PHASES;
    if (known)
        slot->phase = (enum phase)bytes[PHASE_AT];
    if (has_slot_wait(slot->phase))
        slot->due = get_four(bytes + TIME_AT);
    if (talks(slot->phase))
        slot->start = get_four(bytes + TIME_AT);
    if (has_call(slot->phase))
        known = get_carrier(bytes, slot) && known;
    if (is_held(slot->phase))
        known = get_duration(bytes, &slot->duration) && known;
    if (stores_request(slot->phase)) {
        slot->number = get_four(bytes + NUMBER_AT);
        known = get_request(bytes + SLOT_REQUEST_AT, &slot->request) && known;
    }
    return known;
}

/* A number past a byte is no channel, and neither is 0, which stands for it. */
static uint8_t get_channel(const uint8_t *bytes) {
    uint32_t channel = get_four(bytes + CHANNEL_AT);
    return channel > 255u ? 0u : (uint8_t)channel;
}

static bool get_station(const uint8_t *bytes, struct station *station) {
    bool known = true;
    station->clock = get_four(bytes + CLOCK_AT);
    station->identity = get_four(bytes + IDENTITY_AT);
    station->channel_count = bytes[SLOT_COUNT_AT];
    station->waiting_count = bytes[WAITING_COUNT_AT];
    station->last_number = get_four(bytes + LAST_NUMBER_AT);
    if (station->channel_count > MOST_SLOTS || station->waiting_count > MOST_WAITING)
        return false;
    for (uint32_t i = 0; i < station->channel_count; i++) {
        const uint8_t *slot = bytes + SLOTS_AT + i * SLOT_BYTES;
        station->channels[i] = get_channel(slot);
        known = get_slot(slot, &station->slots[i]) && known;
    }
    for (uint32_t i = 0; i < station->waiting_count; i++) {
        const uint8_t *waiting = bytes + QUEUE_AT + i * WAITING_BYTES;
        station->queue[i].due = get_four(waiting + WAITING_DUE_AT);
        known = get_request(waiting + WAITING_REQUEST_AT, &station->queue[i].request) && known;
    }
    return known;
}

/* False is 29 too: bytes of another size or version are no station. */
static bool get_whole(const uint8_t *bytes, size_t size, struct station *station) {
    static const struct station blank = {0};
    *station = blank;
    return size == STATION_BYTES && bytes[VERSION_AT] == LAYOUT_VERSION && get_station(bytes, station);
}

static bool get_sound(const uint8_t *bytes, size_t size, struct station *station) {
    return get_whole(bytes, size, station) && second_is_sound(station);
}

/* ---- to bytes ---- */

static void put_request(uint8_t *bytes, const struct meaning *request) {
    put_four(bytes + SHIP_AT, request->self);
    put_four(bytes + CALLED_AT, request->address);
    bytes[MODE_AT] = (uint8_t)(request->first == SIMPLEX ? 0u : 1u);
    bytes[SECOND_AT] = request->second;
    bytes[COUNT_AT] = request->count;
    for (size_t i = 0; i < MOST_DIGITS; i++)
        bytes[DIGITS_AT + i] = request->digits[i];
}

static void put_carrier(uint8_t *bytes, const struct slot *slot) {
    bool lost = slot->carrier == CARRIER_ABSENT;
    bytes[CARRIER_AT] = (uint8_t)(lost ? 1u : 0u);
    if (lost)
        put_four(bytes + CARRIER_DUE_AT, slot->carrier_due);
}

static void put_duration(uint8_t *bytes, const struct duration *duration) {
    bytes[TOLD_AT] = (uint8_t)(duration->kind == FIELD_NONE ? NOTHING_TOLD : DURATION_TOLD);
    if (duration->kind == FIELD_NONE)
        return;
    bytes[HOURS_AT] = duration->hours;
    bytes[MINUTES_AT] = duration->minutes;
    bytes[SECONDS_AT] = duration->seconds;
}

static void put_slot(uint8_t *bytes, const struct slot *slot, uint8_t channel) {
    bytes[PHASE_AT] = (uint8_t)slot->phase;
    put_four(bytes + CHANNEL_AT, channel);
    if (has_slot_wait(slot->phase))
        put_four(bytes + TIME_AT, slot->due);
    if (talks(slot->phase))
        put_four(bytes + TIME_AT, slot->start);
    if (has_call(slot->phase))
        put_carrier(bytes, slot);
    if (is_held(slot->phase))
        put_duration(bytes, &slot->duration);
    if (stores_request(slot->phase)) {
        put_four(bytes + NUMBER_AT, slot->number);
        put_request(bytes + SLOT_REQUEST_AT, &slot->request);
    }
}

void second_lay(uint8_t *bytes, const struct station *station) {
    bytes[VERSION_AT] = LAYOUT_VERSION;
    put_four(bytes + CLOCK_AT, station->clock);
    put_four(bytes + IDENTITY_AT, station->identity);
    bytes[SLOT_COUNT_AT] = (uint8_t)station->channel_count;
    bytes[WAITING_COUNT_AT] = (uint8_t)station->waiting_count;
    put_four(bytes + LAST_NUMBER_AT, station->last_number);
    for (uint32_t i = 0; i < station->channel_count; i++)
        put_slot(bytes + SLOTS_AT + i * SLOT_BYTES, &station->slots[i], station->channels[i]);
    for (uint32_t i = 0; i < station->waiting_count; i++) {
        uint8_t *waiting = bytes + QUEUE_AT + i * WAITING_BYTES;
        put_four(waiting + WAITING_DUE_AT, station->queue[i].due);
        put_request(waiting + WAITING_REQUEST_AT, &station->queue[i].request);
    }
}

static void put_station(uint8_t *bytes, const struct station *station) {
    static const struct whole { uint8_t bytes[STATION_BYTES]; } zeros = {{0}};
    *(struct whole *)bytes = zeros;
    second_lay(bytes, station);
}

/* ---- what is returned ---- */

static uint64_t due_bits(const struct station *station) {
    uint32_t due = 0;
    return second_next_due(station, &due) ? (uint64_t)1u << 16 | (uint64_t)due << 32 : 0u;
}

/* The station that was handed back is laid down, unless the event was refused; an unsound one has no due time. */
static uint64_t handed_back(const struct step *step, uint8_t *bytes) {
    if (step->answer == NOT_SOUND)
        return NOT_SOUND;
    if (step->answer == DONE || step->answer == IGNORED)
        put_station(bytes, &step->station);
    return (uint64_t)step->answer | (uint64_t)step->actions << 8 | due_bits(&step->station);
}

uint64_t second_set_up_bytes(uint32_t identity, const uint8_t *channels, size_t count, uint8_t *station, size_t size) {
    uint32_t numbers[MOST_SLOTS] = {0};
    if (size != STATION_BYTES)
        return WRONG_SIZE;
    for (size_t i = 0; i < count && i < MOST_SLOTS; i++)
        numbers[i] = channels[i];
    struct step step = second_set_up(identity, numbers, count);
    return handed_back(&step, station);
}

uint64_t second_next_due_bytes(const uint8_t *station, size_t size) {
    struct station before;
    return get_sound(station, size, &before) ? due_bits(&before) : NOT_SOUND;
}

uint64_t second_clock_bytes(const uint8_t *station, size_t size) {
    struct station before;
    return get_sound(station, size, &before) ? (uint64_t)before.clock << 32 : NOT_SOUND;
}

/* Where there are more than a number has, their count alone is judged. */
static struct caller caller_of(uint32_t ship, uint32_t mode, const uint8_t *digits, size_t count, uint32_t *numbers) {
    struct caller caller = {ship, mode, numbers, count};
    for (size_t i = 0; i < count && i < MOST_DIGITS; i++)
        numbers[i] = digits[i];
    return caller;
}

/* ---- events: the station is read from its bytes, the event happens to it, and it is laid down again ---- */

#define TAKES_alone
#define TAKES_on_slot uint32_t slot,
#define TAKES_by_hand TAKES_on_slot
#define TAKES_with_symbols const uint8_t *symbols, size_t count,
#define TAKES_on_slot_with_symbols uint32_t slot, const uint8_t *symbols, size_t count,
#define TAKES_to_ship uint32_t ship, uint32_t mode, const uint8_t *digits, size_t count,

#define GIVES_alone
#define GIVES_on_slot slot,
#define GIVES_by_hand GIVES_on_slot
#define GIVES_with_symbols (struct heard){symbols, count},
#define GIVES_on_slot_with_symbols slot, (struct heard){symbols, count},
#define GIVES_to_ship caller_of(ship, mode, digits, count, (uint32_t[MOST_DIGITS]){0}),

#define ON_BYTES(letter, entry, takes)                                                                 \
    uint64_t second_##entry##_bytes(                                                                   \
        uint8_t *station, size_t size, uint32_t time, TAKES_##takes uint8_t *room, size_t room_size) { \
        struct station before;                                                                         \
        if (!get_whole(station, size, &before))                                                        \
            return NOT_SOUND;                                                                          \
        struct step step = second_##entry(before, time, GIVES_##takes(struct lent){room, room_size});  \
        return handed_back(&step, station);                                                            \
    }
EVENTS(ON_BYTES)
