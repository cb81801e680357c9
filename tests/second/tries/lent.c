/* The station on lent bytes, byte by byte as include/coast.h lays it out: one call from its request to its hold, with a ship
 * that waits, and one from ashore; and the last call numbers. */
#include <stdio.h>
#include <string.h>
#include "lent.h"
#include "station.h"
#include "../host/event.h"

#define SIZE 1791u
#define VERSION 4u /* at byte 0 */
#define CLOCK 1
#define IDENTITY 5
#define SLOT_COUNT 9
#define WAITING_COUNT 10
#define LAST_NUMBER 11
#define SLOT 15   /* where the first slot begins */
#define QUEUE 799 /* and the first waiting ship */

static uint8_t station[SIZE + 1u], wanted[SIZE + 1u];
static struct room room;
static int failures;

extern const struct entries second; /* of ../stations/second.c */

static const uint8_t request[24] = {
    123, 0, 20, 1, 23, 40, 100, 20, 0, 56, 78, 90, 101, 126, 126, 126, 126, 105, 5, 55, 12, 34, 117, 104};
static const uint8_t working_call[24] = {
    123, 0, 20, 1, 23, 40, 100, 20, 0, 56, 78, 90, 101, 126, 126, 126, 126, 105, 5, 55, 12, 34, 127, 98};
static const uint8_t end_of_call[24] = {
    123, 0, 20, 1, 23, 40, 100, 20, 0, 56, 78, 90, 105, 126, 126, 126, 126, 105, 5, 55, 12, 34, 117, 100};

/* 2001234, 200056789 and 200056780 */
static const uint8_t coast[4] = {82, 137, 30, 0}, ship[4] = {213, 159, 236, 11}, other[4] = {204, 159, 236, 11};

static uint64_t told(uint64_t answer, uint64_t actions, uint64_t due) {
    return answer + 256u * actions + (due == 0u ? 0u : 65536u + 4294967296u * due);
}

/* The answer with its due time, and every byte of the station. */
static void want(const char *what, uint64_t got, uint64_t answer) {
    if (got == answer && memcmp(station, wanted, sizeof station) == 0)
        return;
    failures++;
    printf("%s: got %llx, wanted %llx\n", what, (unsigned long long)got, (unsigned long long)answer);
    for (size_t i = 0; i < sizeof station; i++)
        if (station[i] != wanted[i])
            printf("  byte %zu: got %d, wanted %d\n", i, station[i], wanted[i]);
}

static const struct lent_bytes whole = {station, SIZE, room.bytes, sizeof room};

/* Hands in a line of a script, the symbols of a sequence behind it where there are any. */
static uint64_t hand_in_line(const char *text, const uint8_t *symbols, const struct lent_bytes *lent) {
    struct line line = {.length = strlen(text)};
    struct event event;
    uint8_t list[LIST_MOST];
    memcpy(line.text, text, line.length);
    if (!read_event(&line, &event, list))
        return UINT64_MAX;
    if (takes_symbols(event.letter)) {
        event.list = symbols;
        event.count = symbols == NULL ? 0u : 24u;
    }
    return hand_in(&second, &event, lent);
}

static uint64_t heard(const char *line, const uint8_t *symbols) {
    return hand_in_line(line, symbols, &whole);
}

static uint64_t happens(const char *line) {
    return hand_in_line(line, NULL, &whole);
}

static void want_request(size_t at, const uint8_t *from, uint8_t mode) {
    static const uint8_t digits[7] = {5, 5, 5, 1, 2, 3, 4};
    memcpy(wanted + at, from, 4);
    memcpy(wanted + at + 4, coast, 4);
    wanted[at + 8] = mode;
    wanted[at + 9] = 126;
    wanted[at + 10] = 7;
    memcpy(wanted + at + 11, digits, 7);
}

static void want_time(size_t at, uint8_t low, uint8_t high) {
    wanted[at] = low;
    wanted[at + 1] = high;
}

/* In a slot, with the last one given. */
static void want_number(uint8_t number) {
    wanted[LAST_NUMBER] = number;
    wanted[SLOT + 18] = number;
}

static void set_up(void) {
    static const uint8_t channels[3] = {26, 88, 26};
    memset(station, 77, sizeof station);
    memset(wanted, 77, sizeof wanted);
    want("1790 bytes", second_set_up_bytes(1, channels, 2, station, SIZE - 1u), 23);
    want("1792 bytes", second_set_up_bytes(2001234, channels, 2, station, SIZE + 1u), 23);
    want("a ship's identity", second_set_up_bytes(200056789, channels, 2, station, SIZE), 36);
    want("a channel twice", second_set_up_bytes(2001234, channels, 3, station, SIZE), 36);
    want("no channel", second_set_up_bytes(2001234, NULL, 0, station, SIZE), 36);
    memset(wanted, 0, SIZE);
    wanted[0] = VERSION;
    memcpy(wanted + IDENTITY, coast, 4);
    wanted[SLOT_COUNT] = 1;
    wanted[SLOT + 14] = 26;
    for (uint32_t version = 0; version < 256u; version++) {
        station[0] = (uint8_t)version;
        want("set-up", second_set_up_bytes(2001234, channels, 1, station, SIZE), 0);
    }
    want("no wait", second_next_due_bytes(station, SIZE), 0);
    want("the clock", second_clock_bytes(station, SIZE), 0);
}

static void offer(void) {
    static const struct lent_bytes small_room = {station, SIZE, room.bytes, sizeof room - 1u};
    static const struct lent_bytes cut_off = {station, SIZE - 1u, room.bytes, sizeof room};
    want_time(CLOCK, 100, 0);
    wanted[SLOT] = 1;
    want_time(SLOT + 1, 5, 1); /* 261 */
    want_number(1);
    want_request(SLOT + 22, ship, 1);
    want("request", heard("Q 100", request), told(0, 2, 261));
    want("next due", second_next_due_bytes(station, SIZE), told(0, 0, 261));
    want("before the clock", happens("H 90 0"), told(32, 0, 261));
    want("due", happens("U 261 0"), told(33, 0, 261));
    want("no slot", happens("M 260 1"), told(34, 0, 261));
    want("not free", happens("M 260 0"), told(35, 0, 261));
    want("room", hand_in_line("T 261", NULL, &small_room), told(30, 0, 261));
    want("1790 bytes", hand_in_line("T 261", NULL, &cut_off), 29);
    want("due in 1790 bytes", second_next_due_bytes(station, SIZE - 1u), 29);
    want("the clock in 1790 bytes", second_clock_bytes(station, SIZE - 1u), 29);
    want("the clock", second_clock_bytes(station, SIZE), 4294967296u * 100u);
}

/* Bytes of any other version are no station. */
static void versions(void) {
    for (uint32_t version = 0; version < 256u; version++) {
        bool ours = version == VERSION;
        station[0] = wanted[0] = (uint8_t)version;
        want("an event, by the version", happens("H 90 0"), ours ? told(32, 0, 261) : 29);
        want("next due, by the version", second_next_due_bytes(station, SIZE), ours ? told(0, 0, 261) : 29);
        want("the clock, by the version", second_clock_bytes(station, SIZE), ours ? 4294967296u * 100u : 29);
    }
    station[0] = wanted[0] = VERSION;
}

/* With the carrier lost until after it. */
static void end_of_dialling(void) {
    want_time(CLOCK, 49, 1); /* 305 */
    wanted[SLOT + 5] = 1;
    want_time(SLOT + 6, 100, 1); /* 356 */
    want("carrier down while dialling", happens("D 305 0"), told(0, 0, 356));
    wanted[SLOT] = 9;
    want_time(CLOCK, 54, 1);     /* 310 */
    want_time(SLOT + 1, 143, 3); /* 911 */
    want("dialling ended", happens("P 310 0"), told(0, 0, 356));
    want_time(CLOCK, 64, 1); /* 320 */
    want("dialling ended again", happens("P 320 0"), told(1, 0, 356));
    want("dialling ended on no slot", happens("P 330 1"), told(34, 0, 356));
    want_time(CLOCK, 74, 1); /* 330 */
    wanted[SLOT + 5] = wanted[SLOT + 6] = wanted[SLOT + 7] = 0;
    want("carrier up", happens("U 330 0"), told(0, 0, 911));
}

static void call_and_wait(void) {
    uint8_t another[24];
    wanted[SLOT] = 5;
    want_time(CLOCK, 4, 1);     /* 260 */
    want_time(SLOT + 1, 93, 3); /* 861 */
    want("working call", heard("W 260 0", working_call), told(0, 1, 861));
    memcpy(another, request, 24);
    another[11] = 0;   /* ship 200056780 */
    another[12] = 100; /* simplex */
    another[23] = (uint8_t)(104 ^ 90 ^ 0 ^ 101 ^ 100);
    wanted[WAITING_COUNT] = 1;
    want_time(CLOCK, 44, 1);  /* 300 */
    want_time(QUEUE, 85, 36); /* 9301 */
    want_request(QUEUE + 4, other, 0);
    want("another request", heard("Q 300", another), told(0, 1, 861));
    end_of_dialling();
    wanted[SLOT] = 6;
    want_time(CLOCK, 144, 1); /* 400 */
    want_time(SLOT + 1, 144, 1);
    want("off-hook", happens("O 400 0"), told(0, 0, 9301));
    want_time(CLOCK, 244, 1); /* 500 */
    wanted[SLOT + 5] = 1;
    want_time(SLOT + 6, 39, 2); /* 551 */
    want("carrier down", happens("D 500 0"), told(0, 0, 551));
}

static void end_and_ring_back(void) {
    wanted[SLOT] = 7;
    want_time(CLOCK, 38, 2);    /* 550 */
    want_time(SLOT + 1, 79, 2); /* 591 */
    wanted[SLOT + 5] = wanted[SLOT + 6] = wanted[SLOT + 7] = 0;
    wanted[SLOT + 10] = 1;
    wanted[SLOT + 13] = 15;
    want("end", heard("W 550 0", end_of_call), told(0, 4, 591));
    memset(wanted + SLOT + 1, 0, 13);
    memset(wanted + QUEUE, 0, 31);
    want_time(CLOCK, 79, 2);
    wanted[WAITING_COUNT] = 0;
    wanted[SLOT] = 2;
    want_time(SLOT + 1, 130, 2); /* 642 */
    want_number(2);
    want_request(SLOT + 22, other, 0);
    want("hold's tick", happens("T 4000000000"), told(0, 2, 642));
}

/* What a called or ringing slot does not use: its carrier, what was told. */
static void litter(void) {
    memset(station + SLOT + 5, 200, 9);
}

/* Sent with a channel field, 90 0 26, in place of 126s, and with a BQ: its check is that of the request with these changed. */
static void acknowledged(uint8_t *symbols, uint8_t first) {
    memcpy(symbols, request, 24);
    symbols[12] = first;
    symbols[14] = 90;
    symbols[15] = 0;
    symbols[16] = 26;
    symbols[22] = 122;
    symbols[23] = (uint8_t)(104 ^ 101 ^ first ^ 126 ^ 126 ^ 126 ^ 90 ^ 26 ^ 117 ^ 122);
}

/* The call that was sent last: with that second telecommand, to the ship, on channel 26. */
static void want_sent(const char *what, const uint8_t *block, uint8_t second_telecommand) {
    static const uint8_t sent[23] = {123, 20, 0, 56, 78, 90, 100, 0, 20, 1, 23, 40, 101, 126, 90, 0, 26, 105, 5, 55, 12, 34, 117};
    uint8_t expected[40] = {3, 0, 24};
    memcpy(expected + 4, sent, 23);
    expected[4 + 13] = second_telecommand;
    for (size_t i = 0; i < 23u; i++)
        expected[4 + 23] = (uint8_t)(expected[4 + 23] ^ expected[4 + i]);
    if (memcmp(block, expected, 40) == 0)
        return;
    failures++;
    printf("%s: another call was sent\n", what);
}

static void refused_from_ashore(void) {
    static const uint8_t bad[2] = {5, 10};
    static const struct lent_bytes small_room = {station, SIZE, room.bytes, sizeof room - 1u};
    static const struct lent_bytes cut_off = {station, SIZE - 1u, room.bytes, sizeof room};
    want("room", hand_in_line("C 100 1 1", NULL, &small_room), 30);
    want("1790 bytes", hand_in_line("C 100 200056789 101 7", NULL, &cut_off), 29);
    want("ship", happens("C 100 199999999 1"), 15);
    want("mode", happens("C 100 200056789 357"), 17);
    want("no digits", second_call_from_ashore_bytes(station, SIZE, 100, 200056789, 101, NULL, 0, room.bytes, sizeof room), 19);
    want("digit 10", second_call_from_ashore_bytes(station, SIZE, 100, 200056789, 101, bad, 2, room.bytes, sizeof room), 19);
    want("17 digits", happens("C 100 200056789 101 1 2 3 4 5 6 7 8 9 0 1 2 3 4 5 6 7"), 19);
    want("time", happens("C 4000000001 1 1"), 31);
}

static void called_from_ashore(void) {
    uint8_t able[24];
    acknowledged(able, 100);
    wanted[SLOT] = 10;
    want_time(CLOCK, 100, 0);
    want_time(SLOT + 1, 151, 0);
    want_number(1);
    want_request(SLOT + 22, ship, 1);
    want("a call from ashore", happens("C 100 200056789 101 5 5 5 1 2 3 4"), told(0, 2, 151));
    want_sent("the call", room.bytes + 40, 126);
    want("no slot free", happens("C 110 200056780 101 7"), told(37, 0, 151));
    want("the same ship", happens("C 110 200056789 101 7"), told(38, 0, 151));
    litter();
    want_time(CLOCK, 120, 0);
    want("carrier up before it rings", happens("U 120 0"), told(1, 0, 151));
    wanted[SLOT] = 11;
    want_time(CLOCK, 151, 0);
    want_time(SLOT + 1, 202, 0);
    station[SLOT + 22 + 9] = wanted[SLOT + 22 + 9] = 104; /* as no caller's is: it is sent as it stands */
    want("the call once more", happens("T 160"), told(0, 1, 202));
    want_sent("the repeat", room.bytes, 104);
    litter();
    wanted[SLOT] = 12;
    want_time(CLOCK, 201, 0);
    want_time(SLOT + 1, 34, 3); /* 802 */
    want("it rings", heard("Q 201", able), told(0, 1, 802));
}

static void answered_from_ashore(void) {
    litter();
    want_time(CLOCK, 44, 1); /* 300 */
    want("its request", heard("Q 300", request), told(1, 0, 802));
    litter();
    wanted[SLOT] = 6;
    want_time(CLOCK, 33, 3); /* 801 */
    want_time(SLOT + 1, 33, 3);
    want("its transmission", happens("U 801 0"), told(0, 1, 0));
    want_time(CLOCK, 132, 3); /* 900 */
    wanted[SLOT + 5] = 1;
    want_time(SLOT + 6, 183, 3); /* 951 */
    want("its carrier down", happens("D 900 0"), told(0, 0, 951));
    want_time(CLOCK, 182, 3); /* 950 */
    memset(wanted + SLOT, 0, 14);
    memset(wanted + SLOT + 18, 0, 31);
    want("the caller's on-hook", happens("H 950 0"), told(0, 4, 0));
}

/* Each phase from 10 on, by what a due time may be; 13 is invalid. */
static void phases_from_ashore(void) {
    static const struct { uint8_t phase, low, high; } latest[] = {{10, 51, 0}, {11, 51, 0}, {12, 89, 2}}; /* 601 */
    for (size_t i = 0; i < 3u; i++) {
        wanted[SLOT] = station[SLOT] = latest[i].phase;
        want_time(CLOCK, 0, 0);
        want_time(SLOT + 1, latest[i].low, latest[i].high);
        want_request(SLOT + 22, ship, 1);
        memcpy(station, wanted, SIZE);
        uint64_t due = (uint64_t)(latest[i].low + 256u * latest[i].high);
        want("the latest due time", second_next_due_bytes(station, SIZE), told(0, 0, due));
        station[SLOT + 1] = ++wanted[SLOT + 1];
        want("a tenth later", second_next_due_bytes(station, SIZE), 29);
        station[SLOT + 1] = wanted[SLOT + 1] = 0;
        station[SLOT + 2] = wanted[SLOT + 2] = 0;
        want("at the clock", second_next_due_bytes(station, SIZE), told(0, 0, 0) + 65536u);
        station[SLOT + 22 + 8] = wanted[SLOT + 22 + 8] = 2;
        want("mode 2", second_next_due_bytes(station, SIZE), 29);
    }
    station[SLOT + 22 + 8] = wanted[SLOT + 22 + 8] = 1;
    station[SLOT] = wanted[SLOT] = 13;
    want("phase 13", second_next_due_bytes(station, SIZE), 29);
}

/* The four bytes of a number, in the station and in what is wanted. */
static void hand_in_number(size_t at, uint8_t low, uint8_t high) {
    station[at] = wanted[at] = low;
    for (size_t i = 1; i < 4u; i++)
        station[at + i] = wanted[at + i] = high;
}

/* The last number but one has been given: an offer takes the last, 255 255 255 255. */
static void last_number(void) {
    static const uint8_t charge[24] = {
        7, 0, 20, 0, 213, 159, 236, 11, 44, 1, 0, 0, 144, 1, 0, 0, 10, 0, 0, 0, 255, 255, 255, 255};
    hand_in_number(LAST_NUMBER, 254, 255);
    hand_in_number(SLOT + 18, 201, 202); /* of a free slot: not looked at, and 0 where it stays free */
    memset(wanted + SLOT + 18, 0, 4);
    want_time(CLOCK, 50, 0);
    want("a tick", happens("T 50"), told(0, 0, 0));
    memset(wanted + LAST_NUMBER, 255, 4);
    memset(wanted + SLOT + 18, 255, 4);
    want_time(CLOCK, 100, 0);
    wanted[SLOT] = 1;
    want_time(SLOT + 1, 5, 1); /* 261 */
    want_request(SLOT + 22, ship, 1);
    want("the last number", heard("Q 100", request), told(0, 2, 261));
    want_time(CLOCK, 110, 0);
    want("its acknowledgement repeated", heard("Q 110", request), told(0, 1, 261));
    wanted[SLOT] = 5;
    want_time(CLOCK, 200, 0);
    want_time(SLOT + 1, 33, 3); /* 801 */
    want("its call", heard("W 200 0", working_call), told(0, 1, 801));
    wanted[SLOT] = 6;
    want_time(CLOCK, 44, 1); /* 300 */
    want_time(SLOT + 1, 44, 1);
    want("its answer", happens("O 300 0"), told(0, 0, 0));
    wanted[SLOT] = 7;
    want_time(CLOCK, 144, 1);    /* 400 */
    want_time(SLOT + 1, 185, 1); /* 441 */
    wanted[SLOT + 10] = 1;
    wanted[SLOT + 13] = 10;
    want("its end", heard("W 400 0", end_of_call), told(0, 4, 441));
    if (memcmp(room.bytes, charge, 24) != 0) {
        failures++;
        printf("its charge is another\n");
    }
}

/* None is left: a request is told so, and a caller ashore turned away. */
static void used_up(void) {
    static const uint8_t unable[28] = {
        3, 255, 24, 0, 123, 20, 0, 56, 78, 90, 100, 0, 20, 1, 23, 40, 104, 107, 126, 126, 126, 105, 5, 55, 12, 34, 122, 127};
    want_time(CLOCK, 154, 1); /* 410 */
    want("a request in the hold", heard("Q 410", request), told(0, 1, 441));
    want_time(CLOCK, 185, 1); /* 441 */
    memset(wanted + SLOT, 0, 14);
    memset(wanted + SLOT + 18, 0, 31);
    want("the hold's end", happens("T 441"), told(0, 0, 0));
    want_time(CLOCK, 194, 1); /* 450 */
    want("a request", heard("Q 450", request), told(0, 1, 0));
    if (memcmp(room.bytes, unable, 28) != 0) {
        failures++;
        printf("it is not told 107\n");
    }
    want("a caller", happens("C 460 200056789 101 7"), told(37, 0, 0));
    want("the clock", second_clock_bytes(station, SIZE), 4294967296u * 450u);
}

int main(void) {
    set_up();
    offer();
    versions();
    call_and_wait();
    end_and_ring_back();
    set_up();
    refused_from_ashore();
    called_from_ashore();
    answered_from_ashore();
    phases_from_ashore();
    set_up();
    last_number();
    used_up();
    return failures == 0 ? 0 : 1;
}
