/* Plays a script through the library's entries with lent bytes, and prints after each line, at once, what a picture of it needs; `-`
 * stands where there is none:
 *   event W 250 0 200056789 duplex         the event: letter, time, slot, who sends or is called, a label
 *   does 0 dial 5551234                    each action: slot, a label; of a charge also its bounds, `charged 0 720 4829`
 *   = 0 250 1 851                          the reply, as the script program prints it
 *   = 5 0 5 5 5 1 2 3 4
 *   clock 250                              and what the station's bytes then hold, as include/coast.h lays them out
 *   slot 0 channel 26 phase 5 due 851 answered - lost - ship 200056789 number 5551234 words dialling
 *   waiting due 10001 ship 200056790 number 5551234
 * and an empty line. `lost` is the due time of a carrier that is lost. Labels are short, for the marks of a picture: what happens in
 * sentences, explain.c tells. */
#include <coast_words.h>
#include "../../tests/host/event.h"
#include "script_words.h"

extern int printf(const char *, ...);
extern int fflush(void *);

#define UNREADABLE 40u
#define STATION_WRONG 41u
#define CALLING_CHANNEL 70u
#define NO_SLOT 255u
#define NO_REPLY_WANTED 127u
#define UNABLE 104u

/* The station's bytes, as include/coast.h has them for this version of the layout. */
#define VERSION_READ_HERE 4
_Static_assert(COAST_LAYOUT_VERSION == VERSION_READ_HERE, "read include/coast.h again, and say here what moved");
enum {
    AT_CLOCK = 1,
    AT_SLOT_COUNT = 9,
    AT_WAITING_COUNT = 10,
    AT_SLOTS = 15,
    SLOT_SIZE = 49,
    AT_WAITING = 799,
    WAITING_SIZE = 31
};
enum { AT_PHASE = 0, AT_TIME = 1, AT_CARRIER = 5, AT_CARRIER_DUE = 6, AT_CHANNEL = 14, AT_REQUEST = 22, AT_WAITING_REQUEST = 4 };
enum { AT_SHIP = 0, AT_DIGIT_COUNT = 10, AT_DIGITS = 11 };
enum phase { FREE = 0, DIALLING = 5, ANSWERED = 6, TAKEN = 8, DIALLED_OUT = 9, LAST_PHASE = 12 };

static uint8_t station[COAST_STATION_SIZE];
static bool stands;
static uint32_t earliest; /* of the due times that the record holds */

/* ---- labels ---- */

/* False where it cannot be read. */
static bool print_sequence(const uint8_t *symbols, size_t count) {
    uint8_t meaning[COAST_MEANING_SIZE];
    if (coast_read_sequence(symbols, count, meaning, sizeof meaning) != COAST_ANSWER_DONE)
        return false;
    printf("%s", coast_telecommand_words(meaning[COAST_AT_FIRST]));
    if (meaning[COAST_AT_FIRST] == UNABLE)
        printf(", %s", coast_reason_words(meaning[COAST_AT_SECOND]));
    else if (meaning[COAST_AT_END] != NO_REPLY_WANTED)
        printf(" %s", coast_end_words(meaning[COAST_AT_END]));
    return true;
}

static void print_number(bool has, uint32_t number) {
    if (has)
        printf(" %u", (unsigned)number);
    else
        printf(" -");
}

/* Who sends the sequence, or the ship that is called from ashore. */
static void print_who(const struct event *event) {
    uint8_t meaning[COAST_MEANING_SIZE];
    bool heard = takes_symbols(event->letter) &&
                 coast_read_sequence(event->list, event->count, meaning, sizeof meaning) == COAST_ANSWER_DONE;
    print_number(heard || takes_ship(event->letter), heard ? coast_number_at(meaning + COAST_AT_SENDER) : event->ship);
}

static void print_event(const struct event *event) {
    printf("event %c", event->letter);
    print_number(event->letter != SET_UP_LETTER, event->number);
    print_number(takes_slot(event->letter), event->slot);
    print_who(event);
    printf(" ");
    if (!takes_symbols(event->letter) || !print_sequence(event->list, event->count)) {
        const struct line_words *words = words_of_line(event->letter);
        printf("%s", words == NULL ? "no label" : words->name);
    }
    printf("\n");
}

static void print_channel(const uint8_t *action) {
    uint32_t channel = CALLING_CHANNEL;
    if (coast_action_kind(action) == COAST_ACTION_SEND_WORKING)
        channel = coast_number_at(station + AT_SLOTS + coast_action_slot(action) * SLOT_SIZE + AT_CHANNEL);
    printf("%u: ", (unsigned)channel);
}

static void print_does(const uint8_t *action) {
    char number[COAST_NUMBER_TEXT];
    uint32_t kind = coast_action_kind(action), slot = coast_action_slot(action);
    printf("does");
    print_number(slot != NO_SLOT, slot);
    printf(" ");
    if (kind == COAST_ACTION_SEND_CHANNEL_70 || kind == COAST_ACTION_SEND_WORKING) {
        print_channel(action);
        print_sequence(coast_payload(action), coast_payload_length(action));
    } else
        printf("%s", coast_action_words(kind));
    if (kind == COAST_ACTION_DIAL)
        printf(" %s", coast_dialled(action, number));
    if (kind == COAST_ACTION_CHARGE) {
        printf(" %u s (call %u)\n", (unsigned)coast_charge_seconds(action), (unsigned)coast_charge_call(action));
        printf("charged %u %u %u", (unsigned)slot, (unsigned)coast_charge_start(action), (unsigned)coast_charge_stop(action));
    }
    printf("\n");
}

/* ---- the reply, as the script program prints it ---- */

static void print_action(const uint8_t *action) {
    printf("= %u %u", (unsigned)coast_action_kind(action), (unsigned)coast_action_slot(action));
    for (size_t i = 0; i < coast_payload_length(action); i++)
        printf(" %u", (unsigned)coast_payload(action)[i]);
    printf("\n");
}

static void print_reply(uint32_t answer, size_t count, const uint8_t *actions) {
    uint64_t clock = stands ? coast_clock(station, sizeof station) : 0u;
    uint64_t due = stands ? coast_next_due(station, sizeof station) : 0u;
    for (size_t i = 0; i < count; i++)
        print_does(coast_action_at(actions, i));
    printf("= %u %u %u ", (unsigned)answer, (unsigned)coast_time(clock), (unsigned)count);
    if (coast_waits(due))
        printf("%u\n", (unsigned)coast_due(due));
    else
        printf("-\n");
    for (size_t i = 0; i < count; i++)
        print_action(coast_action_at(actions, i));
}

/* ---- what the bytes hold ---- */

static void print_due(const char *name, bool has, uint32_t due) {
    if (has && due < earliest)
        earliest = due;
    printf(" %s", name);
    print_number(has, due);
}

static void print_request(bool has, const uint8_t *request) {
    char number[COAST_NUMBER_TEXT];
    printf(" ship");
    print_number(has, coast_number_at(request + AT_SHIP));
    printf(" number %s", has ? coast_digits_text(request + AT_DIGITS, request[AT_DIGIT_COUNT], number) : "-");
}

static bool print_slot(unsigned place) {
    const uint8_t *slot = station + AT_SLOTS + place * SLOT_SIZE;
    uint8_t phase = slot[AT_PHASE];
    bool deals = phase != FREE && phase != TAKEN, line = phase == DIALLING || phase == ANSWERED || phase == DIALLED_OUT;
    printf("slot %u channel %u phase %u", place, (unsigned)coast_number_at(slot + AT_CHANNEL), (unsigned)phase);
    print_due("due", deals && phase != ANSWERED, coast_number_at(slot + AT_TIME));
    printf(" answered");
    print_number(phase == ANSWERED, coast_number_at(slot + AT_TIME));
    print_due("lost", line && slot[AT_CARRIER] == 1u, coast_number_at(slot + AT_CARRIER_DUE));
    print_request(deals, slot + AT_REQUEST);
    printf(" words %s\n", coast_phase_words(phase));
    return phase <= LAST_PHASE;
}

static void print_waiting(unsigned place) {
    const uint8_t *waiting = station + AT_WAITING + place * WAITING_SIZE;
    printf("waiting");
    print_due("due", true, coast_number_at(waiting));
    print_request(true, waiting + AT_WAITING_REQUEST);
    printf("\n");
}

/* False where a phase is none, or the earliest due time found is not the one that the library tells: then these bytes are laid out
 * otherwise. */
static bool print_record(void) {
    uint64_t due = coast_next_due(station, sizeof station);
    bool as_read = true;
    earliest = UINT32_MAX;
    printf("clock %u\n", (unsigned)coast_number_at(station + AT_CLOCK));
    for (unsigned i = 0; i < station[AT_SLOT_COUNT]; i++)
        as_read = print_slot(i) && as_read;
    for (unsigned i = 0; i < station[AT_WAITING_COUNT]; i++)
        print_waiting(i);
    return as_read && earliest == (coast_waits(due) ? coast_due(due) : UINT32_MAX);
}

/* ---- a line ---- */

static void do_line(const struct line *line) {
    uint8_t list[LIST_MOST], room[COAST_ACTIONS_SIZE];
    struct lent_bytes lent = {station, sizeof station, room, sizeof room};
    struct event event;
    if (!read_event(line, &event, list)) {
        printf("event ? - - - unreadable\n");
        print_reply(UNREADABLE, 0, room);
        return;
    }
    print_event(&event);
    if ((event.letter == SET_UP_LETTER) == stands) {
        print_reply(STATION_WRONG, 0, room);
    } else {
        uint64_t returned = hand_in(&library, &event, &lent);
        stands = stands || coast_answer(returned) == COAST_ANSWER_DONE;
        print_reply(coast_answer(returned), coast_count(returned), room);
    }
}

int main(void) {
    struct line line;
    while (read_line(&line)) {
        do_line(&line);
        if (stands && !print_record()) {
            printf("record: the station's bytes are not laid out as this program reads them\n");
            return 1;
        }
        printf("\n");
        if (fflush(NULL) != 0)
            return 1;
    }
    return 0;
}
