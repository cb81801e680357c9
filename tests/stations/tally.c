/* What was tried: each answer of each event, each kind of action, how many events sound stations accepted. */
#include "stations.h"

extern int printf(const char *, ...);

#define MOST_ANSWERS 39u
#define ACTION_KINDS 11u /* from 1 on */

/* Fewer than these would say that the run no longer tries what it is for. */
#define ENOUGH_ANSWERS 30u
#define ENOUGH_ACTIONS 1000u /* and stations with a free slot beside waiting ships */
#define ENOUGH_MOVES 20u
#define ENOUGH_USED_UP 100u

static const char letters[] = {EVERY_ENTRY(ITS_LETTER)};
#define KINDS (sizeof letters) /* of calls */

/* What was told 104/107, by what stood before it. */
enum used_up { ALONE, BEHIND_AN_END, BEHIND_A_RING_BACK, USED_UP };

static struct counts {
    uint32_t calls, answers[KINDS][MOST_ANSWERS], actions[ACTION_KINDS];
    uint32_t on_sound, accepted, idle_beside_waiting, used_up[USED_UP];
} tally;

void begin_tally(void) {
    static const struct counts none;
    tally = none;
}

static size_t kind_of(char letter) {
    size_t kind = 0;
    while (kind < KINDS - 1u && letters[kind] != letter)
        kind++;
    return kind;
}

#define SENDS 3u
#define NO_SLOT_BYTE 255u
#define SECOND_IN_SEQUENCE 13u
#define EQUIPMENT_DISABLED 107u

/* Whether the call numbers were used up, told by the last action. */
static void note_used_up(size_t actions, const uint8_t *room) {
    const uint8_t *last = room + (actions - 1u) * ACTION_BYTES;
    if (last[0] != SENDS || last[1] != NO_SLOT_BYTE || last[4u + SECOND_IN_SEQUENCE] != EQUIPMENT_DISABLED)
        return;
    bool alone = actions == 1u, rung = !alone && (last - ACTION_BYTES)[0] == SENDS;
    tally.used_up[alone ? ALONE : rung ? BEHIND_A_RING_BACK : BEHIND_AN_END]++;
}

void note_call(char letter, uint64_t returned, const uint8_t *room) {
    uint32_t answer = (uint32_t)(returned & 255u);
    size_t actions = returned >> 8 & 255u;
    tally.calls++;
    if (answer < MOST_ANSWERS)
        tally.answers[kind_of(letter)][answer]++;
    for (size_t i = 0; i < actions; i++)
        tally.actions[room[i * ACTION_BYTES] % ACTION_KINDS]++;
    if (actions > 0u)
        note_used_up(actions, room);
}

void note_drawn(void) {
    bool idle = false;
    for (uint32_t i = 0; i < stage.station.channel_count; i++)
        idle = idle || is_free(stage.station.slots[i].phase);
    if (idle && stage.station.waiting_count > 0u)
        tally.idle_beside_waiting++;
}

void note_sound(uint64_t returned) {
    tally.on_sound++;
    if ((returned & 255u) <= 1u)
        tally.accepted++;
}

/* By include/coast.h; 11 to 20 behind a sequence, and three of them where a ship is called, which is never ignored. */
static bool may_answer(char letter, uint32_t answer) {
    bool hand = is_by_hand(letter), calls = takes_ship(letter), no_tick = calls || takes_slot(letter) || takes_symbols(letter);
    switch (answer) {
    case 0: return true;
    case 29: return letter != SET_UP_LETTER;
    case 1: return no_tick && !hand && !calls;
    case 30:
    case 31:
    case 32: return is_event(letter);
    case 33: return no_tick;
    case 34: return takes_slot(letter);
    case 35: return hand;
    case 23:
    case 36: return letter == SET_UP_LETTER;
    case 15:
    case 17:
    case 19: return takes_symbols(letter) || calls;
    case 37:
    case 38: return calls;
    default: return takes_symbols(letter) && answer >= 11u && answer <= 20u;
    }
}

static bool enough_answers(void) {
    bool all = true;
    for (size_t kind = 0; kind < KINDS; kind++)
        for (uint32_t answer = 0; answer < MOST_ANSWERS; answer++)
            if (may_answer(letters[kind], answer) && tally.answers[kind][answer] < ENOUGH_ANSWERS) {
                printf("stations: hardly tried: %c answered %u, %u times\n", letters[kind], (unsigned)answer,
                    (unsigned)tally.answers[kind][answer]);
                all = false;
            }
    for (uint32_t kind = 1; kind < ACTION_KINDS; kind++)
        if (tally.actions[kind] < ENOUGH_ACTIONS) {
            printf("stations: hardly tried: action %u, %u times\n", (unsigned)kind, (unsigned)tally.actions[kind]);
            all = false;
        }
    return all;
}

static bool enough_used_up(void) {
    bool all = true;
    for (size_t i = 0; i < USED_UP; i++)
        all = all && tally.used_up[i] >= ENOUGH_USED_UP;
    if (!all)
        printf("stations: hardly tried: call numbers used up\n");
    return all;
}

static void tell_answers(void) {
    for (uint32_t answer = 0; answer < MOST_ANSWERS; answer++) {
        uint32_t times = 0;
        for (size_t kind = 0; kind < KINDS; kind++)
            times += tally.answers[kind][answer];
        if (times > 0u)
            printf("%s%u: %u", answer == 0u ? " " : ", ", (unsigned)answer, (unsigned)times);
    }
}

bool tell_tally(uint32_t stations) {
    bool often = 3u * (uint64_t)tally.accepted >= tally.on_sound, idle = tally.idle_beside_waiting >= ENOUGH_ACTIONS;
    printf("stations: %u calls on %u stations agree; answers", (unsigned)tally.calls, (unsigned)stations);
    tell_answers();
    printf("; actions");
    for (uint32_t kind = 1; kind < ACTION_KINDS; kind++)
        printf("%s%u: %u", kind == 1u ? " " : ", ", (unsigned)kind, (unsigned)tally.actions[kind]);
    printf("; 104/107 alone %u, behind an end %u, behind a ring-back %u", (unsigned)tally.used_up[ALONE],
        (unsigned)tally.used_up[BEHIND_AN_END], (unsigned)tally.used_up[BEHIND_A_RING_BACK]);
    printf("; sound stations accepted %u of %u, and %u had a free slot beside waiting ships\n", (unsigned)tally.accepted,
        (unsigned)tally.on_sound, (unsigned)tally.idle_beside_waiting);
    if (!often)
        printf("stations: hardly tried: events that a sound station accepts\n");
    if (!idle)
        printf("stations: hardly tried: a free slot beside waiting ships\n");
    bool answered = enough_answers(), moved = each_field_moved(ENOUGH_MOVES), used_up = enough_used_up();
    return often && idle && answered && moved && used_up;
}
