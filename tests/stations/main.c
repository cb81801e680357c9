/* Holds the station's entries on trial against the second implementation's, up to the first difference: on sound stations,
 * on such with one field moved, and on garbage. Prints what was tried, and fails where one differs or was hardly tried.
 * Arguments: how many stations, and from which seed; the same ones give the same run. */
#include "stations.h"

extern int printf(const char *, ...);
extern void *memcpy(void *to, const void *from, size_t length);
extern void *memset(void *to, int byte, size_t length);

#define STATIONS 300000u
#define SEED 1722u

static uint8_t bytes[MOST_STATION_SIZE];

/* What stands in the parts that are not in use: nothing, or anything. */
static void clear_bytes(void) {
    if (one_in(2))
        memset(bytes, 0, sizeof bytes);
    else
        memcpy(bytes, noise(sizeof bytes), sizeof bytes);
}

static bool agree_on(const struct event *event, size_t size, uint64_t *returned) {
    struct call call = {event, bytes, size, any_room_size()};
    return calls_agree(&call, returned);
}

static bool next_dues_agree(size_t size, uint64_t *returned) {
    static const struct event event = {.letter = NEXT_DUE_LETTER};
    return agree_on(&event, size, returned);
}

static bool clocks_agree(size_t size) {
    static const struct event event = {.letter = CLOCK_LETTER};
    uint64_t returned;
    return agree_on(&event, size, &returned);
}

static bool events_agree(uint32_t count, size_t size, bool sound) {
    uint64_t returned;
    for (uint32_t i = 0; i < count; i++) {
        struct event event = draw_event();
        if (!agree_on(&event, size, &returned))
            return false;
        if (sound)
            note_sound(returned);
    }
    return true;
}

static bool try_sound(void) {
    uint64_t returned;
    draw_any_station();
    note_drawn();
    second_lay(bytes, &stage.station);
    return events_agree(3, STATION_BYTES, true) && clocks_agree(STATION_BYTES) &&
           (!one_in(4) || next_dues_agree(STATION_BYTES, &returned));
}

static bool moved_agree(void) {
    uint64_t returned;
    if (!next_dues_agree(STATION_BYTES, &returned) || !clocks_agree(STATION_BYTES))
        return false;
    note_moved((returned & 255u) == DONE);
    return !one_in(2) || events_agree(1, STATION_BYTES, false);
}

static bool try_moved(void) {
    draw_moved(bytes);
    bool agree = moved_agree();
    if (!agree)
        printf("  of a sound station this was moved: %s\n", field_moved());
    return agree;
}

/* Other bytes in a part of a sound station, or all over. Most keep the version, without which nothing else would be judged. */
static void spoil_bytes(void) {
    size_t length = one_in(2) ? 1u : one_in(8) ? STATION_BYTES : 1u + chance(64);
    size_t used = SLOTS_AT + SLOT_BYTES * stage.station.channel_count;
    size_t at = one_in(2) ? chance((uint32_t)used) : chance(STATION_BYTES);
    length = length > STATION_BYTES - at ? STATION_BYTES - at : length;
    if (one_in(8))
        memcpy(bytes, noise(STATION_BYTES), STATION_BYTES);
    else
        memcpy(bytes + at, noise(length), length);
    if (!one_in(6))
        bytes[VERSION_AT] = LAYOUT_VERSION;
}

static size_t wrong_size(void) {
    static const size_t sizes[] = {0, 1, SLOTS_AT - 1, SLOTS_AT, SLOTS_AT + SLOT_BYTES, QUEUE_AT, STATION_BYTES - 2u,
        STATION_BYTES - 1u, STATION_BYTES + 1u, STATION_BYTES + 2u, MOST_STATION_SIZE};
    return one_in(4) ? chance(MOST_STATION_SIZE + 1u) : sizes[chance(sizeof sizes / sizeof sizes[0])];
}

static bool try_garbage(void) {
    uint64_t returned;
    size_t size = one_in(3) ? wrong_size() : STATION_BYTES;
    draw_any_station();
    second_lay(bytes, &stage.station);
    if (size == STATION_BYTES)
        spoil_bytes();
    return next_dues_agree(size, &returned) && clocks_agree(size) && events_agree(1, size, false);
}

static bool try_set_up(void) {
    uint64_t returned;
    struct event event = draw_set_up();
    if (one_in(4))
        bytes[VERSION_AT] = any_byte();
    return agree_on(&event, one_in(8) ? wrong_size() : STATION_BYTES, &returned);
}

static bool try_station(uint32_t number) {
    clear_bytes();
    switch (number % 10u) {
    case 0:
    case 1:
    case 2:
    case 3: return try_sound();
    case 4: return try_garbage() && try_set_up();
    case 5: return try_garbage();
    default: return try_moved();
    }
}

/* The whole run on one. */
static bool agrees(const struct entries *entries, uint32_t stations, uint32_t seed) {
    judged = entries;
    begin_chance(seed);
    begin_noise();
    begin_tally();
    for (uint32_t i = 0; i < stations; i++)
        if (!try_station(i)) {
            printf("stations: %s differs at station %u\n", entries->name, (unsigned)i + 1u);
            return false;
        }
    printf("stations: %s agrees\n", entries->name);
    return true;
}

static uint32_t number_in(const char *word) {
    uint32_t number = 0;
    for (; *word >= '0' && *word <= '9'; word++)
        number = 10u * number + (uint32_t)(*word - '0');
    return number;
}

int main(int count, char **words) {
    uint32_t stations = count > 1 ? number_in(words[1]) : STATIONS, seed = count > 2 ? number_in(words[2]) : SEED;
    bool all = true;
    for (size_t i = 0; i < tried_count; i++)
        all = agrees(tried[i], stations, seed) && all;
    return all && tell_tally(stations) ? 0 : 1;
}
