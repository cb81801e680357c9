/* The station's entries, called as a host calls them and as it should not. */
#include "../../include/coast_words.h"
#include "../c/checked.h"
#include "checks.h"
#include "event.h"
#include "lent.h"

#define FILLING 85u
#define NONE 0u /* no wait runs */
#define SET_UP "S 002001234 26 27"

/* The ship's own answer to a call from ashore, P2 with its identities exchanged, and the refusals that such a call alone has. */
#define ABLE "123 0 20 1 23 40 100 20 0 56 78 90 101 126 90 0 26 105 5 55 12 34 122 89"
#define NO_SLOT_FREE 37u
#define SHIP_ENGAGED 38u

#define SPOILT " 128 0 0 0 0 0 0 0 0 0 0 0 0 0 0 0 0 0 0 0 0 0 0 0"

/* A line of a script, in which P1 to P6 behind its letter stand for their symbols, and what it must give. */
struct step {
    const char *line;
    uint32_t answer, count, due, clock;
};

/* From a fresh station on. */
static const struct step course[] = {
    {"Q 100 P1", COAST_ANSWER_DONE, 2, 261, 100},
    {"Q 110 P2", COAST_ANSWER_IGNORED, 0, 261, 110},
    {"W 250 0 P4", COAST_ANSWER_DONE, 1, 851, 250},
    {"M 260 1", COAST_ANSWER_DONE, 0, 851, 260},
    {"D 300 0", COAST_ANSWER_DONE, 0, 351, 300},
    {"U 310 0", COAST_ANSWER_DONE, 0, 851, 310},
    {"O 720 0", COAST_ANSWER_DONE, 0, NONE, 720},
    {"F 730 1", COAST_ANSWER_DONE, 0, NONE, 730},
    {"T 900", COAST_ANSWER_DONE, 0, NONE, 900},
    {"W 4829 0 P5", COAST_ANSWER_DONE, 4, 4870, 4829},
    {"H 4830 0", COAST_ANSWER_IGNORED, 0, 4870, 4830},
    {"T 9000", COAST_ANSWER_DONE, 0, NONE, 4870},
    {"Q 9100 P1", COAST_ANSWER_DONE, 2, 9261, 9100},
    {"W 9200 0 P4", COAST_ANSWER_DONE, 1, 9801, 9200},
    {"D 9300 0", COAST_ANSWER_DONE, 0, 9351, 9300},
    {"P 9310 0", COAST_ANSWER_DONE, 0, 9351, 9310},
    {"P 9320 0", COAST_ANSWER_IGNORED, 0, 9351, 9320},
    {"U 9330 0", COAST_ANSWER_DONE, 0, 9911, 9330},
    {"O 9910 0", COAST_ANSWER_DONE, 0, NONE, 9910},
    {"P 9911 0", COAST_ANSWER_IGNORED, 0, NONE, 9911},
    {"H 9950 0", COAST_ANSWER_DONE, 4, NONE, 9950},
    {"C 10000 200056789 101 5 5 5 1 2 3 4", COAST_ANSWER_DONE, 2, 10051, 10000},
    {"U 10010 0", COAST_ANSWER_IGNORED, 0, 10051, 10010},
    {"T 10060", COAST_ANSWER_DONE, 1, 10102, 10051},
    {"Q 10100 " ABLE, COAST_ANSWER_DONE, 1, 10701, 10100},
    {"Q 10110 P1", COAST_ANSWER_IGNORED, 0, 10701, 10110},
    {"U 10700 0", COAST_ANSWER_DONE, 1, NONE, 10700},
    {"O 10710 0", COAST_ANSWER_IGNORED, 0, NONE, 10710},
    {"W 10800 0 P5", COAST_ANSWER_DONE, 4, 10841, 10800},
    {"T 10841", COAST_ANSWER_DONE, 0, NONE, 10841},
    {"C 10900 200056789 100 7", COAST_ANSWER_DONE, 2, 10951, 10900},
    {"H 10910 0", COAST_ANSWER_DONE, 2, NONE, 10910},
};
#define STEPS (sizeof course / sizeof course[0])

/* No list is a null pointer; what is no line gives what no entry returns. */
static uint64_t hand_in_line(const char *text, const struct lent_bytes *lent) {
    struct line line = {.length = 0};
    struct event event;
    uint8_t list[LIST_MOST];
    do
        line.text[line.length++] = (uint8_t)*text++;
    while (*text != '\0' && *text != 'P');
    line.length -= *text == 'P' ? 1u : 0u; /* the space */
    if (!read_event(&line, &event, list))
        return UINT64_MAX;
    if (*text == 'P')
        event.count = CHECKED_LENGTH;
    event.list = event.count == 0u ? NULL : *text == 'P' ? checked[text[1] - '1'] : list;
    return hand_in(&library, &event, lent);
}

/* A station of its own, anywhere, with room for its actions. */
struct own {
    uint8_t station[COAST_STATION_SIZE], room[COAST_ACTIONS_SIZE];
};

static uint64_t hand_in_own(struct own *own, const char *line) {
    struct lent_bytes lent = {own->station, sizeof own->station, own->room, sizeof own->room};
    return hand_in_line(line, &lent);
}

/* The station that the first steps of the course leave. */
static struct own after(size_t steps) {
    struct own own = {{0}, {0}};
    hand_in_own(&own, SET_UP);
    for (size_t i = 0; i < steps; i++)
        hand_in_own(&own, course[i].line);
    return own;
}

/* Whether a call is answered then, and not yet charged. */
static bool talks_after(size_t steps) {
    return (steps >= 7u && steps <= 9u) || steps == 19u || steps == 20u || steps == 27u || steps == 28u;
}

static uint32_t due_of(uint64_t returned) {
    return coast_waits(returned) ? coast_due(returned) : NONE;
}

static void want_due(const char *what, uint64_t returned, uint32_t due) {
    want(what, due_of(returned), due);
}

/* It is told beside the answer 0, and nothing else is. */
static void want_clock(const uint8_t *station, uint32_t clock) {
    uint64_t returned = coast_clock(station, COAST_STATION_SIZE);
    want("beside the clock", (uint32_t)returned, COAST_ANSWER_DONE);
    want("the clock", coast_time(returned), clock);
}

static void try_course(bool at_end) {
    uint8_t *station = lend(FOR_STATION, COAST_STATION_SIZE, at_end, FILLING);
    struct lent_bytes lent = {station, COAST_STATION_SIZE, NULL, 0};
    want("set-up", (uint32_t)hand_in_line(SET_UP, &lent), COAST_ANSWER_DONE);
    want_clock(station, 0);
    lent.room_size = COAST_ACTIONS_SIZE;
    for (size_t i = 0; i < STEPS; i++) {
        lent.room = lend(FOR_ACTIONS, COAST_ACTIONS_SIZE, at_end, FILLING);
        uint64_t returned = hand_in_line(course[i].line, &lent);
        want("a step's answer", coast_answer(returned), course[i].answer);
        want("a step's actions", (uint32_t)coast_count(returned), course[i].count);
        want_due("a step's due time", returned, course[i].due);
        want_due("the next due time", coast_next_due(station, COAST_STATION_SIZE), course[i].due);
        want_clock(station, course[i].clock);
        want_true("bytes behind the actions stay",
            left_alone(FOR_ACTIONS, lent.room, coast_count(returned) * COAST_ONE_ACTION_SIZE, FILLING));
    }
    want_true("bytes beside a station stay", left_alone(FOR_STATION, station, COAST_STATION_SIZE, FILLING));
}

/* Document 01's answer P2, as the second action of its request. */
static void try_action(void) {
    uint8_t wanted[2 * COAST_ONE_ACTION_SIZE] = {COAST_ACTION_CARRIER_ON, 0, 0, 0};
    uint8_t *send = wanted + COAST_ONE_ACTION_SIZE;
    struct own own = after(1);
    send[COAST_AT_ACTION_KIND] = COAST_ACTION_SEND_CHANNEL_70;
    send[COAST_AT_ACTION_LENGTH] = CHECKED_LENGTH;
    copy(send + COAST_AT_ACTION_PAYLOAD, checked[1], CHECKED_LENGTH);
    want_true("the actions' bytes", equal(own.room, wanted, sizeof wanted));
}

/* The dial and the charge of the course, by the helpers of coast_words.h. */
static void try_taken_apart(void) {
    struct own dialling = after(3), ended = after(10);
    char text[COAST_NUMBER_TEXT];
    want("the dial's kind", coast_action_kind(dialling.room), COAST_ACTION_DIAL);
    want_true("the number dialled", equal((const uint8_t *)coast_dialled(dialling.room, text), (const uint8_t *)"5551234", 8));
    want("the charge's kind", coast_action_kind(ended.room), COAST_ACTION_CHARGE);
    want("the charge's slot", coast_action_slot(ended.room), 0);
    want("the ship charged", coast_charge_ship(ended.room), 200056789);
    want("charged from", coast_charge_start(ended.room), 720);
    want("charged to", coast_charge_stop(ended.room), 4829);
    want("seconds charged", coast_charge_seconds(ended.room), 410);
    want("the call charged", coast_charge_call(ended.room), 1);
    want("then the line", coast_action_kind(coast_action_at(ended.room, 1)), COAST_ACTION_RELEASE_LINE);
    want("charged from off-hook", coast_charge_start(after(21).room), 9910);
    want("charged from the ship's transmission", coast_charge_start(after(29).room), 10700);
    want("the second call charged", coast_charge_call(after(21).room), 2);
    want("the third, from ashore", coast_charge_call(after(29).room), 3);
    coast_put_number(ended.station, 4000000000u);
    want("a number put", coast_number_at(ended.station), 4000000000u);
}

/* The words of answers, kinds of action and the like: some for each, and none twice. */
static void want_words(const char *(*words)(uint32_t), uint32_t most, uint32_t known) {
    uint32_t count = 0;
    for (uint32_t i = 0; i <= most; i++) {
        bool unlike = words(i) != words(most);
        for (uint32_t j = 0; j < i; j++)
            unlike = unlike && words(i) != words(j);
        count += unlike ? 1u : 0u;
    }
    want("numbers that have words", count, known);
}

/* Of what is no station nothing is told. */
static void want_untold(const uint8_t *station, size_t size) {
    want("due where no station is", coast_answer(coast_next_due(station, size)), COAST_ANSWER_NOT_SOUND);
    want("a clock where no station is", coast_answer(coast_clock(station, size)), COAST_ANSWER_NOT_SOUND);
}

/* These bytes of a station, cut off or with more behind them, must get this refusal and stay as they are. */
static void want_refused(
    const char *what, const char *line, const uint8_t *bytes, size_t size, size_t room_size, uint32_t wanted) {
    size_t whole = size < COAST_STATION_SIZE ? size : COAST_STATION_SIZE;
    for (int end = 0; end < 2; end++) {
        uint8_t *station = lend(FOR_STATION, size, end == 1, FILLING);
        uint8_t *room = lend(FOR_ACTIONS, room_size, end == 1, FILLING);
        struct lent_bytes lent = {size == 0u ? NULL : station, size, room_size == 0u ? NULL : room, room_size};
        copy(station, bytes, whole);
        uint64_t returned = hand_in_line(line, &lent);
        want(what, coast_answer(returned), wanted);
        want("a refusal's actions", (uint32_t)coast_count(returned), 0);
        if (wanted == COAST_ANSWER_NOT_SOUND)
            want_untold(lent.station, size);
        else if (size == COAST_STATION_SIZE && wanted != COAST_ANSWER_BAD_SET_UP)
            want_due("a refusal tells the due time", returned, due_of(coast_next_due(station, size)));
        want_true(
            "a refusal leaves the station", equal(station, bytes, whole) && left_alone(FOR_STATION, station, whole, FILLING));
        want_true("a refusal leaves the room", left_alone(FOR_ACTIONS, room, 0, FILLING));
    }
}

static void try_sizes(void) {
    static const size_t sizes[] = {0, 1, COAST_STATION_SIZE - 1, COAST_STATION_SIZE + 1, 2048};
    static const size_t rooms[] = {0, 1, COAST_ACTIONS_SIZE - 1};
    for (size_t i = 0; i < STEPS; i++) {
        struct own own = after(i);
        for (size_t j = 0; j < sizeof sizes / sizeof sizes[0]; j++) {
            want_refused("a size", course[i].line, own.station, sizes[j], COAST_ACTIONS_SIZE, COAST_ANSWER_NOT_SOUND);
            want_refused("a size and no room", course[i].line, own.station, sizes[j], 0, COAST_ANSWER_NOT_SOUND);
            want_refused("a size to set up", SET_UP, own.station, sizes[j], 0, COAST_ANSWER_WRONG_SIZE);
        }
        for (size_t j = 0; j < sizeof rooms / sizeof rooms[0]; j++)
            want_refused("a room", course[i].line, own.station, COAST_STATION_SIZE, rooms[j], COAST_ANSWER_ACTIONS_SHORT);
    }
}

/* Fills the bytes of slots and waiting ships past the counts, which nobody may look at. */
static void litter(struct own *own) {
    for (size_t i = 15u + 2u * 49u; i < COAST_STATION_SIZE; i++)
        own->station[i] = 255;
}

/* To the station of the course's first step, at clock 100 with a wait due at 261. */
static void try_refusals(void) {
    static const struct {
        const char *line;
        uint32_t answer;
    } refused[] = {
        {"T 4000000001", COAST_ANSWER_TIME_TOO_LATE},
        {"T 99", COAST_ANSWER_TIME_BEFORE_CLOCK},
        {"Q 261" SPOILT, COAST_ANSWER_WAIT_DUE},
        {"W 261 9 P4", COAST_ANSWER_WAIT_DUE},
        {"P 261 0", COAST_ANSWER_WAIT_DUE},
        {"C 261 1 1", COAST_ANSWER_WAIT_DUE},
        {"W 260 2" SPOILT, COAST_ANSWER_NO_SLOT},
        {"O 260 4294967295", COAST_ANSWER_NO_SLOT},
        {"P 260 2", COAST_ANSWER_NO_SLOT},
        {"W 260 65536 P4", COAST_ANSWER_NO_SLOT},
        {"M 260 257", COAST_ANSWER_NO_SLOT},
        {"Q 260", COAST_ANSWER_BAD_LENGTH},
        {"W 260 0", COAST_ANSWER_BAD_LENGTH},
        {"Q 260" SPOILT, COAST_ANSWER_BAD_SYMBOL},
        {"M 260 0", COAST_ANSWER_OPERATOR},
        {"F 260 1", COAST_ANSWER_OPERATOR},
        {"C 260 199999999 99", COAST_ANSWER_BAD_IDENTITIES},
        {"C 260 200056789 357", COAST_ANSWER_BAD_TELECOMMANDS},
        {"C 260 200056789 101", COAST_ANSWER_BAD_NUMBER},
        {"C 260 200056789 101 7 10", COAST_ANSWER_BAD_NUMBER},
        {"C 260 200056789 101 1 2 3 4 5 6 7 8 9 0 1 2 3 4 5 6 7", COAST_ANSWER_BAD_NUMBER},
        {"C 260 200056789 101 7", SHIP_ENGAGED},
    };
    struct own own = after(1), full = after(4);
    want_refused("no slot free", "C 300 200056780 101 7", full.station, COAST_STATION_SIZE, COAST_ACTIONS_SIZE, NO_SLOT_FREE);
    litter(&own);
    for (size_t i = 0; i < sizeof refused / sizeof refused[0]; i++)
        want_refused("a refusal", refused[i].line, own.station, COAST_STATION_SIZE, COAST_ACTIONS_SIZE, refused[i].answer);
}

static void try_bad_set_ups(void) {
    static const char *const bad[] = {"S 1999999 26 27", "S 200056789 26 27", "S 2001234", "S 2001234 26 26", "S 2001234 26 16",
        "S 2001234 70", "S 2001234 255", "S 2001234 1 2 3 4 5 6 7 8 9 10 11 12 13 14 15 17 18"};
    struct own own = after(3);
    for (size_t i = 0; i < sizeof bad / sizeof bad[0]; i++)
        want_refused("a set-up", bad[i], own.station, COAST_STATION_SIZE, 0, COAST_ANSWER_BAD_SET_UP);
}

/* One byte made wrong in the station after so many steps: 3 dials on slot 0, 5 lost the carrier there, 10 holds, 16 has dialled
 * with its carrier lost, 22 and 24 call a ship, 25 rings. */
static void try_unsound(void) {
    static const struct {
        size_t steps, place;
        uint8_t value;
    } wrong[] = {{3, 4, 255}, {3, 8, 1}, {3, 9, 0}, {3, 9, 17}, {3, 10, 33}, {3, 15, 13}, {3, 15, 255}, {3, 17, 255}, {3, 29, 16},
        {3, 30, 1}, {3, 40, 0}, {3, 45, 2}, {3, 47, 17}, {5, 20, 2}, {5, 22, 255}, {10, 25, 2}, {10, 27, 60}, {16, 15, 13},
        {16, 17, 255}, {16, 20, 2}, {16, 22, 255}, {16, 40, 0}, {22, 17, 255}, {22, 40, 0}, {22, 45, 2}, {24, 17, 255},
        {25, 17, 255}, {25, 47, 17}};
    for (size_t i = 0; i < sizeof wrong / sizeof wrong[0]; i++) {
        struct own own = after(wrong[i].steps);
        own.station[wrong[i].place] = wrong[i].value;
        for (size_t j = 0; j < STEPS; j++)
            want_refused("an unsound station", course[j].line, own.station, COAST_STATION_SIZE, 0, COAST_ANSWER_NOT_SOUND);
    }
}

/* Before its dialling ended a slot has the phase 5, and then 9; the bytes beside it stand for the same. */
static void try_dialled_out(void) {
    struct own dialling = after(15), dialled = after(16);
    want("the phase of dialling", dialling.station[15], 5);
    want("the phase of dialled out", dialled.station[15], 9);
    dialled.station[15] = 5;
    want("the first end of dialling", coast_answer(hand_in_own(&dialled, "P 9320 0")), COAST_ANSWER_DONE);
    want_due("a minute from there", hand_in_own(&dialled, "U 9330 0"), 9921);
}

/* A ship that is called, called again, and rings has the phases 10, 11 and 12, and the answered call the one of any other. */
static void try_called(void) {
    static const struct {
        size_t steps;
        uint8_t phase;
    } phases[] = {{22, 10}, {23, 10}, {24, 11}, {25, 12}, {26, 12}, {27, 6}, {29, 7}};
    for (size_t i = 0; i < sizeof phases / sizeof phases[0]; i++)
        want("the phase of a call from ashore", after(phases[i].steps).station[15], phases[i].phase);
    struct own called = after(25);
    called.station[15] = 10;
    called.station[16] = 143; /* due at 10127, as a sending may be */
    called.station[17] = 39;
    want("carrier up before it rings", coast_answer(hand_in_own(&called, "U 10110 0")), COAST_ANSWER_IGNORED);
}

/* The last call number given stands at byte 11, and a slot's own at its byte 18: the last of all is given, to one call. */
static void try_call_numbers(void) {
    struct own own = after(0);
    coast_put_number(own.station + 11, UINT32_MAX - 1u);
    want("the last number", (uint32_t)coast_count(hand_in_own(&own, "Q 100 P1")), 2);
    want("it is given", coast_number_at(own.station + 11), UINT32_MAX);
    want("the slot keeps it", coast_number_at(own.station + 15 + 18), UINT32_MAX);
    hand_in_own(&own, "W 250 0 P4");
    hand_in_own(&own, "O 720 0");
    hand_in_own(&own, "W 4829 0 P5");
    want("the charge has it", coast_charge_call(own.room), UINT32_MAX);
    hand_in_own(&own, "T 9000");
    want("none is left", (uint32_t)coast_count(hand_in_own(&own, "Q 9100 P1")), 1);
    want("no slot is given", coast_action_slot(own.room), 255);
    want("equipment disabled", coast_payload(own.room)[13], 107);
    want_refused(
        "none for a caller", "C 9200 200056789 101 7", own.station, COAST_STATION_SIZE, COAST_ACTIONS_SIZE, NO_SLOT_FREE);
}

/* Of all that byte 0 may be, one value alone is a station's; set-up does not look at it. */
static void try_versions(void) {
    struct own fresh = after(0);
    uint32_t taken = 0;
    for (uint32_t version = 0; version <= UINT8_MAX; version++) {
        struct own own = after(1);
        own.station[COAST_AT_VERSION] = (uint8_t)version;
        taken += coast_answer(coast_clock(own.station, sizeof own.station)) == COAST_ANSWER_DONE ? 1u : 0u;
        for (size_t i = 0; i < STEPS && version != COAST_LAYOUT_VERSION; i++)
            want_refused("another version", course[i].line, own.station, COAST_STATION_SIZE, 0, COAST_ANSWER_NOT_SOUND);
        want("set-up over any version", coast_answer(hand_in_own(&own, SET_UP)), COAST_ANSWER_DONE);
        want_true("a fresh station", equal(own.station, fresh.station, sizeof own.station));
    }
    want("versions that are taken", taken, 1);
    want("the version laid", fresh.station[COAST_AT_VERSION], COAST_LAYOUT_VERSION);
}

static void want_same(const char *what, const struct own *a, const struct own *b) {
    want_true(what, equal(a->station, b->station, sizeof a->station) && equal(a->room, b->room, sizeof a->room));
}

/* What coast.h tells a host to do after 33 and after 32, and at the end of time. */
static void try_advice(void) {
    struct own late = after(1), last = after(0);
    want("a late event", coast_answer(hand_in_own(&late, "U 300 0")), COAST_ANSWER_WAIT_DUE);
    want_due("the ticks before it", hand_in_own(&late, "T 300"), NONE);
    want("the event once more", coast_answer(hand_in_own(&late, "U 300 0")), COAST_ANSWER_IGNORED);
    want("an event of before", coast_answer(hand_in_own(&late, "U 299 0")), COAST_ANSWER_TIME_BEFORE_CLOCK);
    want("at the latest time", coast_answer(hand_in_own(&late, "U 300 0")), COAST_ANSWER_IGNORED);
    hand_in_own(&last, "Q 3999999990 P1");
    uint64_t returned = hand_in_own(&last, "T 4000000000");
    want("the last time", coast_answer(returned), COAST_ANSWER_DONE);
    want_true("a wait that never fires", coast_waits(returned) && coast_due(returned) > COAST_LAST_TIME);
    want("its due time", coast_answer(hand_in_own(&last, "T 4000000151")), COAST_ANSWER_TIME_TOO_LATE);
}

/* What coast.h tells a host that comes back after a while: its time goes on from the clock, and ticks come first, two at most
 * here. */
static void try_coming_back(void) {
    for (size_t steps = 0; steps <= STEPS; steps++) {
        struct own kept = after(steps);
        uint32_t now = coast_time(coast_clock(kept.station, sizeof kept.station)) + 10000u;
        uint64_t told = coast_next_due(kept.station, sizeof kept.station);
        for (int most = 2; most > 0 && coast_waits(told) && coast_due(told) <= now; most--)
            told = coast_tick(kept.station, sizeof kept.station, now, kept.room, sizeof kept.room);
        told = coast_carrier_up(kept.station, sizeof kept.station, now, 0, kept.room, sizeof kept.room);
        want_true("the first event", coast_answer(told) <= COAST_ANSWER_IGNORED);
        want_clock(kept.station, now);
    }
}

/* And before another library takes over: an on-hook ends each call, and charges those that were answered. */
static void try_ending_calls(void) {
    for (size_t steps = 0; steps <= STEPS; steps++) {
        struct own own = after(steps);
        uint32_t now = coast_time(coast_clock(own.station, sizeof own.station)), charges = 0;
        for (uint32_t slot = 0; slot < 2u; slot++) {
            uint64_t told = coast_on_hook(own.station, sizeof own.station, now, slot, own.room, sizeof own.room);
            want_true("an on-hook", coast_answer(told) <= COAST_ANSWER_IGNORED);
            for (size_t i = 0; i < coast_count(told); i++)
                charges += coast_action_kind(coast_action_at(own.room, i)) == COAST_ACTION_CHARGE ? 1u : 0u;
        }
        want("calls charged", charges, talks_after(steps) ? 1u : 0u);
    }
}

/* Two stations, one some steps behind the other, each as it is alone; and a copy goes on as the first one does. */
static void try_side_by_side(void) {
    for (size_t behind = 0; behind < STEPS; behind++) {
        struct own first = after(behind), second = after(0), whole = after(STEPS), part = after(STEPS - behind);
        struct own copied = first;
        for (size_t i = behind; i < STEPS; i++) {
            uint64_t returned = hand_in_own(&first, course[i].line);
            hand_in_own(&second, course[i - behind].line);
            want_true("a copy returns the same", hand_in_own(&copied, course[i].line) == returned);
        }
        want_same("beside another", &first, &whole);
        want_same("behind another", &second, &part);
        want_same("copied", &copied, &whole);
    }
}

/* Whatever stands there changes nothing, and is 0 after an event. */
static void try_unused_bytes(void) {
    for (size_t i = 0; i < STEPS; i++) {
        struct own clean = after(i), littered = clean;
        litter(&littered);
        uint64_t returned = hand_in_own(&clean, course[i].line);
        want_true("unused bytes", hand_in_own(&littered, course[i].line) == returned);
        want_same("unused bytes are 0", &littered, &clean);
    }
}

void try_stations(void) {
    try_course(false);
    try_course(true);
    try_action();
    try_taken_apart();
    want_words(coast_answer_words, 255, 29);
    want_words(coast_action_words, 255, 10);
    want_words(coast_telecommand_words, 255, 5);
    want_words(coast_reason_words, 255, 11);
    want_words(coast_end_words, 255, 3);
    want_words(coast_phase_words, 255, 13);
    try_sizes();
    try_refusals();
    try_bad_set_ups();
    try_unsound();
    try_dialled_out();
    try_called();
    try_call_numbers();
    try_versions();
    try_advice();
    try_coming_back();
    try_ending_calls();
    try_side_by_side();
    try_unused_bytes();
}
