/* What no script can reach: the writer (21), soundness (29), a small room
 * (30), untouched bytes, the step of eight actions, a free slot beside a
 * waiting ship, and the last call numbers. */
#include <stdio.h>
#include <string.h>
#include "inside.h"

static int failures;

static void want(const char *what, long got, long wanted) {
    if (got == wanted)
        return;
    failures++;
    printf("%s: got %ld, wanted %ld\n", what, got, wanted);
}

#define COAST 2001234u
#define SHIP 200056789u
#define LAST 4294967295u /* of the call numbers */

static const uint8_t P1[24] = {
    123, 0, 20, 1, 23, 40, 100, 20, 0, 56, 78, 90, 101, 126, 126, 126, 126, 105, 5, 55, 12, 34, 117, 104};
static const uint8_t P6[24] = {123, 20, 0, 56, 78, 90, 100, 0, 20, 1, 23, 40, 105, 126, 0, 6, 50, 105, 5, 55, 12, 34, 122, 33};

static struct meaning p1_meaning(void) {
    struct meaning m = {COAST, SHIP, 101, 126, FIELD_NONE, 0, 0, 0, 0, 7, {5, 5, 5, 1, 2, 3, 4}, 117};
    return m;
}

/* The writer's answer; on a refusal nothing may be touched. */
static int written(const struct meaning *m, size_t room_len, uint8_t *room) {
    size_t length = 777;
    uint8_t before[28];
    int answer;
    memset(room, 0xA5, 28);
    memcpy(before, room, 28);
    answer = second_write(m, room, room_len, &length);
    if (answer != 0) {
        want("room untouched", memcmp(before, room, 28), 0);
        want("length untouched", (long)length, 777);
        return answer;
    }
    for (size_t i = length; i < 28; i++)
        want("only the sequence's own bytes", room[i], 0xA5);
    return (int)length;
}

static void try_writer(void) {
    uint8_t room[28];
    struct meaning m = p1_meaning();
    want("P1 length", written(&m, 28, room), 24);
    want("P1", memcmp(room, P1, 24), 0);
    want("room 27", written(&m, 27, room), 21);
    m = p1_meaning();
    m.address = SHIP;
    m.first = 110;
    m.kind = FIELD_CHANNEL;
    m.count = 0;
    m.end = 1;
    want("21 before all", written(&m, 0, room), 21);
    want("15", written(&m, 28, room), 15);
    m.address = COAST;
    want("17", written(&m, 28, room), 17);
    m.first = 101;
    want("18", written(&m, 28, room), 18);
    m.channel = 26;
    want("19", written(&m, 28, room), 19);
    m.count = 7;
    want("20", written(&m, 28, room), 20);
    m.end = 127;
    want("done", written(&m, 28, room), 24);
    m.kind = (enum field_kind)7;
    want("no such kind", written(&m, 28, room), 18);
    m = p1_meaning();
    m.channel = 26;
    want("unused channel", written(&m, 28, room), 18);
    m = p1_meaning();
    m.digits[7] = 1;
    want("unused digit", written(&m, 28, room), 19);
    m = p1_meaning();
    m.digits[6] = 10;
    want("digit 10", written(&m, 28, room), 19);
    m = p1_meaning();
    m.count = 17;
    want("17 digits", written(&m, 28, room), 19);
    m = p1_meaning();
    m.address = SHIP;
    m.self = COAST;
    m.first = 105;
    m.kind = FIELD_DURATION;
    m.minutes = 6;
    m.seconds = 50;
    m.end = 122;
    want("P6 length", written(&m, 28, room), 24);
    want("P6", memcmp(room, P6, 24), 0);
    m.kind = FIELD_CHANNEL;
    m.minutes = 0;
    m.seconds = 0;
    m.channel = 26;
    want("channel in an end", written(&m, 28, room), 18);
}

static void try_reader(void) {
    struct meaning m, kept;
    uint8_t symbols[24];
    memset(&m, 0x5A, sizeof m);
    kept = m;
    want("11", second_read(P1, 20, &m), 11);
    want("unwritten", memcmp(&m, &kept, sizeof m), 0);
    want("P1 read", second_read(P1, 24, &m), 0);
    want("address", (long)m.address, COAST);
    want("self", (long)m.self, SHIP);
    want("kind", m.kind, FIELD_NONE);
    want("channel", m.channel, 0);
    want("count", m.count, 7);
    want("first digit", m.digits[0], 5);
    want("last digit", m.digits[6], 4);
    want("unused digit", m.digits[7], 0);
    /* 90 0 26 in an end of call: ninety hours and 26 s */
    memcpy(symbols, P6, 24);
    symbols[14] = 90;
    symbols[15] = 0;
    symbols[16] = 26;
    symbols[23] = (uint8_t)(33 ^ 6 ^ 50 ^ 90 ^ 26);
    want("90 0 26", second_read(symbols, 24, &m), 0);
    want("kind", m.kind, FIELD_DURATION);
    want("hours", m.hours, 90);
    want("seconds", m.seconds, 26);
    want("channel", m.channel, 0);
}

static struct station two_channels(void) {
    static const uint32_t channels[2] = {26, 27};
    struct step step = second_set_up(COAST, channels, 2);
    want("set-up", step.answer, 0);
    return step.station;
}

/* The answer of a tick at its own clock; refusals must leave the rest. */
static int ticked(struct station s, size_t room_len) {
    uint8_t room[ACTION_ROOM], before[ACTION_ROOM];
    struct lent lent = {room, room_len};
    struct step step;
    memset(room, 0xA5, sizeof room);
    memcpy(before, room, sizeof room);
    step = second_tick(s, s.clock, lent);
    if (step.answer >= 11) {
        want("room untouched", memcmp(room, before, sizeof room), 0);
        want("station unchanged", memcmp(&step.station, &s, sizeof s), 0);
        want("no actions", step.actions, 0);
    }
    return step.answer;
}

/* A sound station at clock 1000: slot 0 answered simplex with the carrier
 * absent, the 7th call of 41, slot 1 free, one ship waiting. */
static struct station busy(void) {
    struct station s = two_channels();
    struct slot *call = &s.slots[0];
    s.clock = 1000;
    s.last_number = 41;
    call->phase = PHASE_ANSWERED;
    call->number = 7;
    call->request = p1_meaning();
    call->request.first = 100;
    call->start = 900;
    call->carrier = CARRIER_ABSENT;
    call->carrier_due = 1451;
    s.waiting_count = 1;
    s.queue[0].request = p1_meaning();
    s.queue[0].request.self = SHIP + 1;
    s.queue[0].due = 10001;
    return s;
}

static void unsound(const char *what, struct station s) {
    want(what, second_is_sound(&s), 0);
    want(what, ticked(s, ACTION_ROOM), 29);
    want(what, ticked(s, 0), 29);
}

static void try_soundness(void) {
    struct station s = busy();
    want("sound", ticked(s, ACTION_ROOM), 0);
    want("30", ticked(s, ACTION_ROOM - 1), 30);
    /* clang-format off */
    s.identity = SHIP; unsound("identity", s);
    s = busy(); s.channel_count = 0; unsound("no channel", s);
    s = busy(); s.channel_count = 17; unsound("17 channels", s);
    s = busy(); s.channels[1] = 26; unsound("same channel", s);
    s = busy(); s.channels[1] = 70; unsound("channel 70", s);
    s = busy(); s.queue[0].request.first = 106; unsound("data", s);
    s = busy(); s.queue[0].request.address++; unsound("other coast", s);
    s = busy(); s.slots[0].request.end = 127; unsound("not a request", s);
    s = busy(); s.slots[0].request.count = 0; unsound("no number", s);
    s = busy(); s.clock = TIME_LIMIT + 1; unsound("clock", s);
    s = busy(); s.waiting_count = 33; unsound("33 wait", s);
    s = busy(); s.queue[0].request.self = SHIP; unsound("twice", s);
    s = busy(); s.slots[0].start = 1001; unsound("start", s);
    s = busy(); s.slots[0].start = 1000; want("start", second_is_sound(&s), 1);
    s = busy(); s.slots[0].carrier_due = 1452; unsound("carrier late", s);
    s = busy(); s.slots[0].carrier_due = 999; unsound("carrier early", s);
    s = busy(); s.slots[0].carrier_due = 1000; want("now", second_is_sound(&s), 1);
    s = busy(); s.slots[0].request.first = 101; unsound("duplex wait", s);
    s = busy(); s.queue[0].due = 10002; unsound("queue late", s);
    s = busy(); s.queue[0].due = 999; unsound("queue early", s);
    s = busy(); s.slots[1].phase = (enum phase)13; unsound("no such phase", s);
    s = busy(); s.last_number = 0; want("no number given", second_is_sound(&s), 1);
    s = busy(); s.last_number = LAST; want("the last number given", second_is_sound(&s), 1);
    s = busy(); s.slots[0].number = 42; want("a number not given", second_is_sound(&s), 1);
    s = busy(); s.slots[0].number = 0; want("no number", second_is_sound(&s), 1);
    /* clang-format on */
}

/* Each wait, by the number that include/coast.h gives the phase. */
static void try_phases(void) {
    static const uint32_t waits[PHASES] = {0, 160, 50, 50, 160, 600, 0, 40, 0, 600, 50, 50, 600};
    for (size_t i = 0; i < PHASES; i++) {
        struct station s = busy();
        enum phase phase = (enum phase)i;
        if (waits[i] == 0u)
            continue;
        s.slots[1].phase = phase;
        s.slots[1].request = p1_meaning();
        s.slots[1].request.self = SHIP + 2;
        s.slots[1].due = 1000 + waits[i] + 1;
        want("due", second_is_sound(&s), 1);
        s.slots[1].request.self = SHIP;
        want("ship in a slot too", second_is_sound(&s), is_held(phase));
        s.slots[1].request.self = SHIP + 1;
        want("ship in the queue too", second_is_sound(&s), is_held(phase));
        s.slots[1].request.self = SHIP + 2;
        s.slots[1].due++;
        unsound("due late", s);
        s.slots[1].due = 999;
        unsound("due early", s);
        s.slots[1].due = 1000;
        s.slots[1].carrier = CARRIER_ABSENT;
        s.slots[1].carrier_due = 1000 + 50 + 1;
        want("carrier due", second_is_sound(&s), 1);
        s.slots[1].carrier_due++;
        want("carrier late", second_is_sound(&s), !has_call(phase));
        s.slots[1].carrier = CARRIER_PRESENT;
        s.slots[1].duration.kind = FIELD_DURATION;
        s.slots[1].duration.minutes = 60;
        want("duration", second_is_sound(&s), !is_held(phase));
    }
}

/* Rule c on a sound station with a free slot and a waiting ship: 4 + 2 + 2. */
static void try_eight(void) {
    static const uint8_t kinds[8] = {7, 6, 4, 2, 1, 3, 1, 3};
    static const uint8_t slots[8] = {0, 0, 0, 0, 0, 0, 1, 1};
    static const uint8_t lengths[8] = {20, 0, 24, 0, 0, 24, 0, 24};
    uint8_t room[ACTION_ROOM + 1];
    struct lent lent = {room, sizeof room};
    struct heard heard = {P1, 24};
    struct step step;
    memset(room, 0xA5, sizeof room);
    step = second_heard_on_channel_70(busy(), 1010, heard, lent);
    want("rule c", step.answer, 0);
    want("eight actions", step.actions, 8);
    want("byte after", room[ACTION_ROOM], 0xA5);
    for (size_t i = 0; i < 8; i++) {
        const uint8_t *block = room + 40 * i;
        want("kind", block[0], kinds[i]);
        want("slot", block[1], slots[i]);
        want("length", block[2], lengths[i]);
        want("fourth byte", block[3], 0);
        for (size_t j = 4u + lengths[i]; j < 40; j++)
            want("zeros", block[j], 0);
    }
    want("charged seconds", room[4 + 12], 11);
    want("the call's number", room[4 + 16], 7);
    want("the ring-back's", (long)step.station.slots[0].number, 42);
    want("the offer's", (long)step.station.slots[1].number, 43);
    want("the last given", (long)step.station.last_number, 43);
    memset(room, 0xA5, sizeof room);
    heard.count = 20;
    step = second_heard_on_channel_70(busy(), 1010, heard, lent);
    want("11", step.answer, 11);
    want("clock", step.station.clock, 1000);
    for (size_t i = 0; i < sizeof room; i++)
        want("room untouched", room[i], 0xA5);
    heard.count = 24;
    step = second_heard_on_channel_70(two_channels(), 1, heard, lent);
    want("two actions", step.actions, 2);
    for (size_t i = 80; i < sizeof room; i++)
        want("bytes after the last action stay", room[i], 0xA5);
}

/* The answer of a call from ashore to busy(); a refusal must leave the rest, and what is taken is the free slot 1. */
static int called(uint32_t ship, uint32_t mode, const uint32_t *digits, size_t count, size_t room_len) {
    uint8_t room[ACTION_ROOM], before[ACTION_ROOM];
    struct lent lent = {room, room_len};
    struct caller caller = {ship, mode, digits, count};
    struct station s = busy();
    struct step step;
    memset(room, 0xA5, sizeof room);
    memcpy(before, room, sizeof room);
    step = second_call_from_ashore(s, 1010, caller, lent);
    if (step.answer != 0) {
        want("room untouched", memcmp(room, before, sizeof room), 0);
        want("station unchanged", memcmp(&step.station, &s, sizeof s), 0);
        want("no actions", step.actions, 0);
        return step.answer;
    }
    want("two actions", step.actions, 2);
    want("carrier on", room[0], 1);
    want("slot", room[1], 1);
    want("sent", room[40], 3);
    want("its slot", room[41], 1);
    want("bytes after the last action stay", memcmp(room + 80, before + 80, sizeof room - 80), 0);
    want("phase", step.station.slots[1].phase, 10);
    want("due", (long)step.station.slots[1].due, 1061);
    want("still waiting", step.station.waiting_count, 1);
    want("second telecommand", step.station.slots[1].request.second, 126);
    want("sound", second_is_sound(&step.station), 1);
    return 0;
}

/* A free slot beside a waiting ship is the caller's; digits are judged as numbers. */
static void try_ashore(void) {
    static const uint32_t digits[17] = {1, 2, 3, 4, 5, 6, 7, 8, 9, 0, 1, 2, 3, 4, 5, 6, 7};
    static const uint32_t high[3] = {9, 9, 256};
    want("called", called(SHIP + 2, 100, digits, 16, ACTION_ROOM), 0);
    want("30", called(SHIP + 2, 100, digits, 16, ACTION_ROOM - 1), 30);
    want("15", called(COAST, 102, digits, 0, ACTION_ROOM), 15);
    want("17", called(SHIP, 102, digits, 0, ACTION_ROOM), 17);
    want("no digit", called(SHIP, 101, NULL, 0, ACTION_ROOM), 19);
    want("17 digits", called(SHIP, 101, digits, 17, ACTION_ROOM), 19);
    want("256", called(SHIP, 101, high, 3, ACTION_ROOM), 19);
    want("two of them", called(SHIP + 2, 101, high, 2, ACTION_ROOM), 0);
    want("a ship that talks", called(SHIP, 101, digits, 1, ACTION_ROOM), 38);
    want("a ship that waits", called(SHIP + 1, 101, digits, 1, ACTION_ROOM), 38);
}

/* A drop rings back on the slot that it freed, and on no other free one; the carrier of a ringing slot is not looked at. */
static void try_drop(void) {
    struct station s = busy();
    struct room actions;
    struct lent lent = {actions.bytes, sizeof actions};
    struct step step;
    s.slots[1] = s.slots[0];
    s.slots[0] = (struct slot){0};
    s.slots[1].phase = PHASE_RINGING;
    s.slots[1].due = 1601;
    step = second_on_hook(s, 1600, 1, lent);
    want("dropped", step.answer, 0);
    want("ringing off, carrier off, release, ring-back", step.actions, 5);
    want("ringing off", actions.bytes[0], 9);
    want("slot 0 stays free", step.station.slots[0].phase, 0);
    want("slot 1 rings back", step.station.slots[1].phase, 2);
    s.slots[1].carrier_due = 0;
    step = second_carrier_up(s, 1600, 1, lent);
    want("answered", step.answer, 0);
    want("ringing off alone", step.actions, 1);
    want("carrier present", step.station.slots[1].carrier, CARRIER_PRESENT);
    want("from here on", (long)step.station.slots[1].start, 1600);
    want("no wait of its own", second_is_sound(&step.station), 1);
}

/* ---- call numbers (02, no. 4) ---- */

/* What one event gave: its step, and its room. */
struct given {
    struct step step;
    struct room room;
};

static struct given asked(struct station s, const struct meaning *request) {
    struct given given;
    uint8_t symbols[LONGEST_SEQUENCE];
    struct heard heard = {symbols, 0};
    struct lent lent = {given.room.bytes, sizeof given.room};
    want("a request", second_write(request, symbols, sizeof symbols, &heard.count), 0);
    memset(given.room.bytes, 0xA5, sizeof given.room);
    given.step = second_heard_on_channel_70(s, 1010, heard, lent);
    want("accepted", given.step.answer, 0);
    want("sound", second_is_sound(&given.step.station), 1);
    return given;
}

static struct meaning request_of(uint32_t ship, uint8_t first) {
    struct meaning m = p1_meaning();
    m.self = ship;
    m.first = first;
    return m;
}

/* One action, a whole block: the request's answer, 104 and the reason. */
static void want_unable(const char *what, const uint8_t *block, const struct meaning *request, uint8_t reason) {
    uint8_t wanted[ACTION_BYTES] = {3, 255};
    struct meaning m = *request;
    size_t length = 0;
    m.address = request->self;
    m.self = request->address;
    m.first = 104;
    m.second = reason;
    m.end = 122;
    want("an answer", second_write(&m, wanted + 4, 28, &length), 0);
    wanted[2] = (uint8_t)length;
    want(what, memcmp(block, wanted, ACTION_BYTES), 0);
}

/* "answer 104/107 and change nothing else": the clock is moved, as with any accepted event. */
static void want_nothing_else(const char *what, struct station s, const struct meaning *request, uint8_t reason) {
    struct given given = asked(s, request);
    s.clock = 1010;
    want(what, given.step.actions, 1);
    want(what, memcmp(&given.step.station, &s, sizeof s), 0);
    want_unable(what, given.room.bytes, request, reason);
    want(what, given.room.bytes[ACTION_BYTES], 0xA5);
}

static struct station counted(uint32_t last) {
    struct station s = busy();
    s.last_number = last;
    return s;
}

/* counted(), and slot 1 has a request of ship SHIP + 2, the 9th call. */
static struct station expecting(uint32_t last, enum phase phase) {
    struct station s = counted(last);
    s.slots[1].phase = phase;
    s.slots[1].request = request_of(SHIP + 2, 101);
    s.slots[1].number = 9;
    s.slots[1].due = 1020;
    return s;
}

/* Rules d to g, and a, with none left. */
static void try_used_up(void) {
    struct meaning m = request_of(SHIP + 1, 100);
    struct station s = counted(LAST);
    want_nothing_else("rule d", s, &m, 107);
    m.self = SHIP + 2;
    want_nothing_else("rule e", s, &m, 107);
    s.slots[1].phase = PHASE_TAKEN;
    want_nothing_else("rule f", s, &m, 107);
    m.self = SHIP + 1;
    want_nothing_else("rule d, no slot free", s, &m, 107);
    for (s.waiting_count = 1; s.waiting_count < MOST_WAITING; s.waiting_count++) {
        s.queue[s.waiting_count] = s.queue[0];
        s.queue[s.waiting_count].request.self = SHIP + 100 + s.waiting_count;
    }
    m.self = SHIP + 2;
    want_nothing_else("rule g", s, &m, 107);
    s.waiting_count = 0;
    memset(s.queue, 0, sizeof s.queue);
    want_nothing_else("rule f, nobody waits", s, &m, 107);
    m.first = 106;
    want_nothing_else("rule a", counted(LAST), &m, 109);
    m.self = SHIP;
    want_nothing_else("rule a in a call", counted(LAST), &m, 109);
}

/* Rule b with none left: what is offered stays so, and is acknowledged again where the request is identical. */
static void try_used_up_again(void) {
    static const enum phase rung[] = {PHASE_RING_BACK, PHASE_RING_BACK_REPEATED, PHASE_ACKNOWLEDGED};
    struct meaning same = request_of(SHIP + 2, 101), other = request_of(SHIP + 2, 100);
    struct station s = expecting(LAST, PHASE_OFFERED);
    struct given given = asked(s, &same);
    s.clock = 1010;
    want("repeated", given.step.actions, 1);
    want("nothing stored", memcmp(&given.step.station, &s, sizeof s), 0);
    want("sent", given.room.bytes[0], 3);
    want("with its slot", given.room.bytes[1], 1);
    want("able", given.room.bytes[4 + 12], 101);
    want("the channel", given.room.bytes[4 + 16], 27);
    want_nothing_else("offered, another request", expecting(LAST, PHASE_OFFERED), &other, 107);
    for (size_t i = 0; i < 3u; i++) {
        want_nothing_else("the same request", expecting(LAST, rung[i]), &same, 107);
        want_nothing_else("another request", expecting(LAST, rung[i]), &other, 107);
    }
}

/* Rule c ends its call whatever numbers are left: 4 actions, then a ring-back's 2, then an offer's 2 or the one of 107. */
static void try_rule_c_at_the_end(void) {
    static const struct {
        uint32_t last, actions, phases[2], numbers[2], waiting;
    } ends[] = {
        {LAST, 5, {PHASE_FREE, PHASE_FREE}, {0, 0}, 1},
        {LAST - 1u, 7, {PHASE_RING_BACK, PHASE_FREE}, {LAST, 0}, 0},
        {LAST - 2u, 8, {PHASE_RING_BACK, PHASE_OFFERED}, {LAST - 1u, LAST}, 0},
    };
    struct meaning m = request_of(SHIP, 101);
    for (size_t i = 0; i < 3u; i++) {
        struct given given = asked(counted(ends[i].last), &m);
        want("charged", given.room.bytes[0], 7);
        want("under its number", given.room.bytes[4 + 16], 7);
        want("actions", given.step.actions, ends[i].actions);
        want("still waiting", given.step.station.waiting_count, ends[i].waiting);
        want("the last given", (long)given.step.station.last_number, (long)LAST);
        for (size_t j = 0; j < 2u; j++) {
            want("phase", (long)given.step.station.slots[j].phase, (long)ends[i].phases[j]);
            want("number", (long)given.step.station.slots[j].number, (long)ends[i].numbers[j]);
        }
        if (ends[i].actions < 8u)
            want_unable("107", given.room.bytes + (ends[i].actions - 1u) * ACTION_BYTES, &m, 107);
    }
}

/* The last one is given, to an offer, to an offer afresh, to a ring-back, to a call from ashore. */
static void try_last_number(void) {
    static const uint32_t digits[1] = {7};
    struct meaning m = request_of(SHIP + 2, 100);
    struct caller caller = {SHIP + 2, 101, digits, 1};
    struct room room;
    struct lent lent = {room.bytes, sizeof room};
    struct step step = asked(counted(LAST - 1u), &m).step;
    want("an offer", (long)step.station.slots[1].number, (long)LAST);
    step = asked(expecting(LAST - 1u, PHASE_OFFERED), &m).step;
    want("an offer afresh", (long)step.station.slots[1].number, (long)LAST);
    want("its wait", (long)step.station.slots[1].due, 1171);
    step = second_on_hook(counted(LAST - 1u), 1010, 0, lent);
    want("a ring-back", (long)step.station.slots[0].number, (long)LAST);
    step = second_call_from_ashore(counted(LAST - 1u), 1010, caller, lent);
    want("a call from ashore", (long)step.station.slots[1].number, (long)LAST);
    want("the last given", (long)step.station.last_number, (long)LAST);
}

/* Nobody is rung back, whatever frees the slot; the ship waits on until it is dropped. */
static void try_no_ring_back(void) {
    struct room room;
    struct lent lent = {room.bytes, sizeof room};
    struct station s = counted(LAST);
    struct step step = second_on_hook(s, 1010, 0, lent);
    want("an end alone", step.actions, 4);
    want("freed", step.station.slots[0].phase, 0);
    want("waits on", step.station.waiting_count, 1);
    step = second_tick(step.station, 10001, lent);
    want("dropped", step.station.waiting_count, 0);
    s.slots[1].phase = PHASE_TAKEN;
    step = second_give_back(s, 1010, 1, lent);
    want("given back", step.actions, 0);
    want("freed", step.station.slots[1].phase, 0);
    step = second_tick(expecting(LAST, PHASE_HOLD), 1020, lent);
    want("the hold's end", step.actions, 0);
    step = second_tick(expecting(LAST, PHASE_OFFERED), 1020, lent);
    want("carrier off alone", step.actions, 1);
    step = second_tick(expecting(LAST, PHASE_RINGING), 1020, lent);
    want("a drop alone", step.actions, 4);
}

/* A call that has its number goes on as ever. */
static void try_goes_on(void) {
    static const enum phase kept[] = {PHASE_RING_BACK, PHASE_CALLED};
    struct meaning m = request_of(SHIP + 2, 101);
    uint8_t symbols[LONGEST_SEQUENCE];
    struct heard heard = {symbols, 0};
    struct room room;
    struct lent lent = {room.bytes, sizeof room};
    struct step step;
    for (size_t i = 0; i < 2u; i++) {
        step = second_tick(expecting(LAST, kept[i]), 1020, lent);
        want("once more", step.station.slots[1].phase, kept[i] + 1);
        want("its number", (long)step.station.slots[1].number, 9);
    }
    m.end = 127;
    want("a working call", second_write(&m, symbols, sizeof symbols, &heard.count), 0);
    step = second_heard_on_slot(expecting(LAST, PHASE_ACKNOWLEDGED), 1010, 1, heard, lent);
    want("dials", step.station.slots[1].phase, PHASE_DIALLING);
    step = second_dialling_ended(step.station, 1020, 1, lent);
    step = second_off_hook(step.station, 1030, 1, lent);
    m.first = 105;
    m.end = 117;
    want("an end", second_write(&m, symbols, sizeof symbols, &heard.count), 0);
    step = second_heard_on_slot(step.station, 1040, 1, heard, lent);
    want("charged", room.bytes[0], 7);
    want("its number", room.bytes[4 + 16], 9);
    want("hold", step.station.slots[1].phase, PHASE_HOLD);
    want("its number in the hold", (long)step.station.slots[1].number, 9);
}

/* "a caller ashore gets 37", behind 15, 17, 19 and 38. */
static void try_caller_at_the_end(void) {
    static const struct {
        uint32_t ship, mode, count;
        int answer;
    } callers[] = {{COAST, 102, 0, 15}, {SHIP + 2, 102, 0, 17}, {SHIP, 101, 0, 19}, {SHIP, 101, 1, 38}, {SHIP + 1, 101, 1, 38},
        {SHIP + 2, 101, 1, 37}};
    static const uint32_t digits[1] = {7};
    struct room room;
    struct lent lent = {room.bytes, sizeof room};
    for (size_t i = 0; i < sizeof callers / sizeof callers[0]; i++) {
        struct caller caller = {callers[i].ship, callers[i].mode, digits, callers[i].count};
        struct station s = counted(LAST);
        struct step step = second_call_from_ashore(s, 1010, caller, lent);
        want("a caller", step.answer, callers[i].answer);
        want("unchanged", memcmp(&step.station, &s, sizeof s), 0);
    }
}

int main(void) {
    try_writer();
    try_reader();
    try_soundness();
    try_phases();
    try_eight();
    try_ashore();
    try_drop();
    try_used_up();
    try_used_up_again();
    try_rule_c_at_the_end();
    try_last_number();
    try_no_ring_back();
    try_goes_on();
    try_caller_at_the_end();
    return failures == 0 ? 0 : 1;
}
