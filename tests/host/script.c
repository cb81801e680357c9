/* The script program once more, as a host in C: each line goes through the library's entries with lent bytes. It prints what
 * document 01 says, the clock as coast_clock tells it, and ends with 1 where the library touches what it may not. */
#include "../../include/coast_words.h"
#include "event.h"
#include "lent.h"

extern int printf(const char *, ...);
extern int memcmp(const void *, const void *, size_t);
extern void *memcpy(void *, const void *, size_t);

#define UNREADABLE 40u
#define STATION_WRONG 41u
#define FILLING 170u

static uint8_t *station;
static bool stands;

static void print_action(const uint8_t *action) {
    printf("%u %u", (unsigned)coast_action_kind(action), (unsigned)coast_action_slot(action));
    for (size_t i = 0; i < coast_payload_length(action); i++)
        printf(" %u", (unsigned)coast_payload(action)[i]);
    printf("\n");
}

/* By the library; what no clock can be, where that refuses. */
static uint32_t clock_told(void) {
    uint64_t returned = stands ? coast_clock(station, COAST_STATION_SIZE) : 0u;
    return coast_answer(returned) == COAST_ANSWER_DONE ? coast_time(returned) : UINT32_MAX;
}

static void print_answer(uint32_t answer, size_t count, const uint8_t *actions) {
    uint64_t due = stands ? coast_next_due(station, COAST_STATION_SIZE) : 0u;
    printf("%u %u %u", (unsigned)answer, (unsigned)clock_told(), (unsigned)count);
    if (coast_waits(due))
        printf(" %u\n", (unsigned)coast_due(due));
    else
        printf(" -\n");
    for (size_t i = 0; i < count; i++)
        print_action(coast_action_at(actions, i));
}

/* Whether what an entry returned tells of the station as it now stands, as coast_next_due does. */
static bool tells_due(uint64_t returned) {
    uint64_t due = stands ? coast_next_due(station, COAST_STATION_SIZE) : 0u;
    return coast_answer(due) == COAST_ANSWER_DONE && coast_waits(returned) == coast_waits(due) &&
           coast_due(returned) == coast_due(due);
}

/* A refusal leaves the station; nobody touches the list, the room behind the actions, or what lies beside lent bytes. */
static bool kept_to(
    uint64_t returned, const uint8_t *before, const struct event *event, const uint8_t *list, const uint8_t *room) {
    bool refused = coast_answer(returned) > COAST_ANSWER_IGNORED;
    return (!refused || (coast_count(returned) == 0u && memcmp(station, before, COAST_STATION_SIZE) == 0)) &&
           left_alone(FOR_STATION, station, COAST_STATION_SIZE, FILLING) && memcmp(event->list, list, event->count) == 0 &&
           left_alone(FOR_SYMBOLS, event->list, event->count, FILLING) &&
           left_alone(FOR_ACTIONS, room, coast_count(returned) * COAST_ONE_ACTION_SIZE, FILLING);
}

static bool do_event(struct event *event, const uint8_t *list) {
    uint8_t before[COAST_STATION_SIZE], *symbols = lend(FOR_SYMBOLS, event->count, true, FILLING);
    uint8_t *room = lend(FOR_ACTIONS, COAST_ACTIONS_SIZE, true, FILLING);
    memcpy(before, station, COAST_STATION_SIZE);
    memcpy(symbols, list, event->count);
    event->list = symbols;
    struct lent_bytes bytes = {station, COAST_STATION_SIZE, room, COAST_ACTIONS_SIZE};
    uint64_t returned = hand_in(&library, event, &bytes);
    stands = stands || coast_answer(returned) == COAST_ANSWER_DONE;
    print_answer(coast_answer(returned), coast_count(returned), room);
    return tells_due(returned) && kept_to(returned, before, event, list, room);
}

static bool do_line(const struct line *line) {
    uint8_t list[LIST_MOST];
    struct event event;
    if (!read_event(line, &event, list))
        print_answer(UNREADABLE, 0, NULL);
    else if ((event.letter == SET_UP_LETTER) == stands)
        print_answer(STATION_WRONG, 0, NULL);
    else
        return do_event(&event, list);
    return true;
}

int main(void) {
    struct line line;
    if (!set_up_lent()) {
        printf("host: no memory to lend\n");
        return 77;
    }
    station = lend(FOR_STATION, COAST_STATION_SIZE, true, FILLING);
    while (read_line(&line))
        if (!do_line(&line)) {
            printf("host: after this line lent bytes, or the due time told, are not as they must be\n");
            return 1;
        }
    return 0;
}
