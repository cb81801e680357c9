/* A sound station with one field moved to a value just inside or just outside its rule, field by field of the layout. */
#include "stations.h"

extern int printf(const char *, ...);

enum part { WHOLE_AT_CLOCK, WHOLE_OF_IDENTITY, HEAD, SLOT, WAITING, SHIP_TWICE, CHANNEL_TWICE };
enum from { PLAINLY, FROM_CLOCK, FROM_IDENTITY, WITHOUT_A_RULE };

/* How the part is drawn before one of its fields is moved. */
enum state { AS_DRAWN, FULL, IDLE, LOST_SIMPLEX, LOST_DUPLEX, WITH_DURATION, ONE_DIGIT, FIFTEEN_DIGITS, SIXTEEN_DIGITS };

#define ANY_PHASE NULL

#define MOST_VALUES 20u
struct field {
    const char *name;
    enum part part;
    enum state state;
    bool (*phases)(enum phase); /* of the slot */
    size_t at, width;
    enum from from;
    uint32_t count;
    int64_t values[MOST_VALUES];
};

/* The fields of a request, in a slot and in a waiting ship; clang-format would take the last row for a block. */
/* clang-format off */
#define OF_REQUEST(where, part, phases, begins)                                                                                \
    {where "ship", part, AS_DRAWN, phases, begins + SHIP_AT, 4, PLAINLY, 6,                                                    \
     {199999999, 200000000, 799999999, 800000000, 2000000, 4294967295}},                                                       \
    {where "station called", part, AS_DRAWN, phases, begins + CALLED_AT, 4, FROM_IDENTITY, 3, {-1, 0, 1}},                     \
    {where "mode", part, AS_DRAWN, phases, begins + MODE_AT, 1, PLAINLY, 4, {0, 1, 2, 255}},                                   \
    {where "second telecommand", part, AS_DRAWN, phases, begins + SECOND_AT, 1, PLAINLY, 6, {0, 99, 100, 126, 127, 255}},      \
    {where "count of one digit", part, ONE_DIGIT, phases, begins + COUNT_AT, 1, PLAINLY, 4, {0, 1, 2, 16}},                    \
    {where "count of fifteen digits", part, FIFTEEN_DIGITS, phases, begins + COUNT_AT, 1, PLAINLY, 3, {14, 15, 16}},           \
    {where "count of sixteen digits", part, SIXTEEN_DIGITS, phases, begins + COUNT_AT, 1, PLAINLY, 4, {15, 16, 17, 255}},      \
    {where "first digit", part, AS_DRAWN, phases, begins + DIGITS_AT, 1, PLAINLY, 4, {0, 9, 10, 255}},                         \
    {where "last digit", part, SIXTEEN_DIGITS, phases, begins + DIGITS_AT + 15, 1, PLAINLY, 4, {0, 9, 10, 255}},               \
    {where "unused digit", part, FIFTEEN_DIGITS, phases, begins + DIGITS_AT + 15, 1, PLAINLY, 4, {0, 0, 1, 9}}
/* clang-format on */

static const struct field fields[] = {
    {"clock, all due times with it", WHOLE_AT_CLOCK, AS_DRAWN, ANY_PHASE, 0, 0, PLAINLY, 3, {4000000000, 4000000001, 4000000002}},
    {"identity, all requests with it", WHOLE_OF_IDENTITY, AS_DRAWN, ANY_PHASE, 0, 0, PLAINLY, 5,
        {1999999, 2000000, 7999999, 8000000, 200000000}},
    {"identity of an idle station", WHOLE_OF_IDENTITY, IDLE, ANY_PHASE, 0, 0, PLAINLY, 5,
        {1999999, 2000000, 7999999, 8000000, 200000000}},
    {"version", HEAD, AS_DRAWN, ANY_PHASE, VERSION_AT, 1, PLAINLY, 8, {0, 1, 2, 3, 4, 5, 132, 255}},
    {"clock", HEAD, AS_DRAWN, ANY_PHASE, CLOCK_AT, 4, FROM_CLOCK, 2, {-1, 1}},
    {"identity", HEAD, AS_DRAWN, ANY_PHASE, IDENTITY_AT, 4, FROM_IDENTITY, 3, {-1, 0, 1}},
    {"count of slots", HEAD, FULL, ANY_PHASE, SLOT_COUNT_AT, 1, PLAINLY, 7, {0, 1, 15, 16, 17, 18, 255}},
    {"count of waiting ships", HEAD, FULL, ANY_PHASE, WAITING_COUNT_AT, 1, PLAINLY, 7, {0, 1, 31, 32, 33, 34, 255}},
    {"last call number", HEAD, AS_DRAWN, ANY_PHASE, LAST_NUMBER_AT, 4, WITHOUT_A_RULE, 6,
        {0, 1, 4294967293, 4294967294, 4294967295, 4278190080}},
    {"channel", SLOT, AS_DRAWN, ANY_PHASE, CHANNEL_AT, 4, PLAINLY, 20,
        {0, 1, 15, 16, 17, 28, 29, 59, 60, 69, 70, 71, 88, 89, 255, 256 + 26, 26 << 8, (1 << 16) + 26, (1 << 24) + 26, 26 << 24}},
    {"phase", SLOT, AS_DRAWN, ANY_PHASE, PHASE_AT, 1, PLAINLY, 16, {0, 1, 2, 3, 4, 5, 6, 7, 8, 9, 10, 11, 12, 13, 14, 255}},
    {"offer's due time", SLOT, AS_DRAWN, expects_working_call, TIME_AT, 4, FROM_CLOCK, 4, {-1, 0, 161, 162}},
    {"ring-back's due time", SLOT, AS_DRAWN, is_rung, TIME_AT, 4, FROM_CLOCK, 4, {-1, 0, 51, 52}},
    {"dialling's due time", SLOT, AS_DRAWN, is_dialling, TIME_AT, 4, FROM_CLOCK, 4, {-1, 0, 601, 602}},
    {"reply's due time", SLOT, AS_DRAWN, is_dialled_out, TIME_AT, 4, FROM_CLOCK, 4, {-1, 0, 601, 602}},
    {"call from ashore's due time", SLOT, AS_DRAWN, is_called, TIME_AT, 4, FROM_CLOCK, 4, {-1, 0, 51, 52}},
    {"ringing's due time", SLOT, AS_DRAWN, is_ringing, TIME_AT, 4, FROM_CLOCK, 4, {-1, 0, 601, 602}},
    {"hold's due time", SLOT, AS_DRAWN, is_held, TIME_AT, 4, FROM_CLOCK, 4, {-1, 0, 41, 42}},
    {"since", SLOT, AS_DRAWN, talks, TIME_AT, 4, FROM_CLOCK, 2, {0, 1}},
    {"carrier", SLOT, LOST_DUPLEX, has_call, CARRIER_AT, 1, PLAINLY, 4, {0, 1, 2, 255}},
    {"simplex carrier's due time", SLOT, LOST_SIMPLEX, has_call, CARRIER_DUE_AT, 4, FROM_CLOCK, 4, {-1, 0, 451, 452}},
    {"duplex carrier's due time", SLOT, LOST_DUPLEX, has_call, CARRIER_DUE_AT, 4, FROM_CLOCK, 4, {-1, 0, 51, 52}},
    {"lost carrier's mode", SLOT, LOST_SIMPLEX, has_call, SLOT_REQUEST_AT + MODE_AT, 1, PLAINLY, 2, {0, 1}},
    {"told", SLOT, WITH_DURATION, is_held, TOLD_AT, 1, PLAINLY, 4, {0, 1, 2, 255}},
    {"hours", SLOT, WITH_DURATION, is_held, HOURS_AT, 1, PLAINLY, 3, {99, 100, 255}},
    {"minutes", SLOT, WITH_DURATION, is_held, MINUTES_AT, 1, PLAINLY, 3, {59, 60, 255}},
    {"seconds", SLOT, WITH_DURATION, is_held, SECONDS_AT, 1, PLAINLY, 3, {59, 60, 255}},
    {"call number", SLOT, AS_DRAWN, stores_request, NUMBER_AT, 4, WITHOUT_A_RULE, 5, {0, 1, 255, 256, 4294967295}},
    OF_REQUEST("slot's ", SLOT, stores_request, SLOT_REQUEST_AT),
    {"waiting ship's due time", WAITING, AS_DRAWN, ANY_PHASE, WAITING_DUE_AT, 4, FROM_CLOCK, 4, {-1, 0, 9001, 9002}},
    OF_REQUEST("waiting ship's ", WAITING, ANY_PHASE, WAITING_REQUEST_AT),
    {"a ship twice", SHIP_TWICE, AS_DRAWN, ANY_PHASE, 0, 0, PLAINLY, 1, {0}},
    {"a channel twice", CHANNEL_TWICE, AS_DRAWN, ANY_PHASE, 0, 0, PLAINLY, 1, {0}},
};
#define FIELDS (sizeof fields / sizeof fields[0])

static uint32_t sounds[FIELDS], unsounds[FIELDS];
static size_t last;

/* ---- the station before the move ---- */

static void lose_carrier(struct slot *slot, uint8_t mode, uint32_t wait) {
    slot->request.first = mode;
    slot->carrier = CARRIER_ABSENT;
    slot->carrier_due = stage.station.clock + 1u + chance(wait + 1u);
}

static void number_of_digits(struct meaning *request, uint8_t count) {
    request->count = count;
    for (size_t i = 0; i < MOST_DIGITS; i++)
        request->digits[i] = i < count ? (uint8_t)chance(one_in(2) ? 10u : 1u) : 0u;
}

static void bring_to(enum state state, struct slot *slot, struct meaning *request) {
    static const struct duration some = {FIELD_DURATION, 12, 34, 56};
    switch (state) {
    case LOST_SIMPLEX: lose_carrier(slot, SIMPLEX, SIMPLEX_CARRIER_WAIT); break;
    case LOST_DUPLEX: lose_carrier(slot, DUPLEX, DUPLEX_CARRIER_WAIT); break;
    case WITH_DURATION: slot->duration = some; break;
    case ONE_DIGIT: number_of_digits(request, 1); break;
    case FIFTEEN_DIGITS: number_of_digits(request, 15); break;
    case SIXTEEN_DIGITS: number_of_digits(request, 16); break;
    default: break;
    }
}

/* Where the part begins that has the field. */
static size_t draw_part(const struct field *field) {
    struct station *station = &stage.station;
    uint32_t slot = chance(station->channel_count), place = chance(station->waiting_count);
    if (field->state == IDLE)
        draw_idle();
    if (field->part == SLOT) {
        if (field->phases != ANY_PHASE)
            draw_slot(slot, draw_phase(field->phases));
        bring_to(field->state, &station->slots[slot], &station->slots[slot].request);
        return slot_begins(slot);
    }
    if (field->part == WAITING) {
        if (station->waiting_count == 0u)
            draw_waiting(station->waiting_count++);
        bring_to(field->state, NULL, &station->queue[place].request);
        return waiting_begins(place);
    }
    return 0;
}

/* Drawn with the value that is moved to, where all else goes by it. */
static void draw_whole(const struct field *field, uint32_t value) {
    begin_station();
    if (field->part == WHOLE_AT_CLOCK)
        stage.station.clock = value;
    if (field->part == WHOLE_OF_IDENTITY)
        stage.station.identity = value;
    if (field->state == FULL)
        fill_station(MOST_SLOTS, MOST_WAITING);
    else
        fill_as_usual();
}

/* ---- the move ---- */

/* A ship of a slot or of the queue stands in another place too, which may be a hold's or one that stores none. */
static void put_ship_twice(uint8_t *bytes) {
    const struct station *station = &stage.station;
    uint32_t places = station->channel_count + station->waiting_count, from = chance(places), to = chance(places);
    uint32_t slots = station->channel_count;
    size_t source = from < slots ? slot_begins(from) + SLOT_REQUEST_AT : waiting_begins(from - slots) + WAITING_REQUEST_AT;
    size_t target = to < slots ? slot_begins(to) + SLOT_REQUEST_AT : waiting_begins(to - slots) + WAITING_REQUEST_AT;
    put_number(bytes + target + SHIP_AT, number_at(bytes + source + SHIP_AT, 4), 4);
}

static void put_channel_twice(uint8_t *bytes) {
    uint32_t count = stage.station.channel_count;
    size_t source = slot_begins(chance(count)), target = slot_begins(chance(count));
    put_number(bytes + target + CHANNEL_AT, number_at(bytes + source + CHANNEL_AT, 4), 4);
}

void draw_moved(uint8_t *bytes) {
    last = chance(FIELDS);
    const struct field *field = &fields[last];
    uint32_t value = (uint32_t)field->values[chance(field->count)];
    draw_whole(field, value);
    size_t begins = draw_part(field);
    value += field->from == FROM_CLOCK ? stage.station.clock : field->from == FROM_IDENTITY ? stage.station.identity : 0u;
    second_lay(bytes, &stage.station);
    if (field->part == SHIP_TWICE)
        put_ship_twice(bytes);
    else if (field->part == CHANNEL_TWICE)
        put_channel_twice(bytes);
    else
        put_number(bytes + begins + field->at, value, field->width);
}

const char *field_moved(void) {
    return fields[last].name;
}

void tell_head(const uint8_t *bytes) {
    printf(" ");
    for (size_t i = 0; i < FIELDS; i++)
        if (fields[i].part == HEAD)
            printf(" %s %u", fields[i].name, (unsigned)number_at(bytes + fields[i].at, fields[i].width));
    printf("\n");
}

void note_moved(bool sound) {
    if (sound)
        sounds[last]++;
    else
        unsounds[last]++;
}

/* A field without a rule is never outside it. */
static bool was_moved(size_t field, uint32_t enough) {
    bool outside = fields[field].from == WITHOUT_A_RULE ? unsounds[field] == 0u : unsounds[field] >= enough;
    return sounds[field] >= enough && outside;
}

bool each_field_moved(uint32_t enough) {
    bool all = true;
    for (size_t i = 0; i < FIELDS; i++)
        if (!was_moved(i, enough)) {
            printf("stations: hardly tried: %s, %u times inside its rule and %u outside\n", fields[i].name, (unsigned)sounds[i],
                (unsigned)unsounds[i]);
            all = false;
        }
    return all;
}
