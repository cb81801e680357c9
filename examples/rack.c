/* A small host in C for the coast station: an event loop over a feed of lines (feed.h), with a timer for the waits.
 *
 * Its clock is the feed's: a line happens at its time, and the timer rings in between. The library decides all else; the host
 * lends it bytes, does what the actions say (here: prints them), and sets its timer for the next due time.
 *
 * With a path it keeps in that file what it must not forget (kept.h). Started again with the same file and the same feed it goes
 * on where it was. */
#include <coast_words.h>
#include "feed.h"
#include "kept.h"
#include "words.h"

/* As <stdio.h> has them: the toolchain's compiler, which can build this too, comes without the C library's headers. */
extern int printf(const char *, ...);
extern int dprintf(int, const char *, ...);
extern int fflush(void *);
extern _Noreturn void exit(int);

#define CALLING_CHANNEL 70u
#define ERRORS 2 /* the stream's number */

struct rack {
    struct kept kept;
    const char *path; /* the file that it is kept in, or NULL */
    uint32_t line;    /* the number of the line in hand */
    bool timer_runs;
    uint32_t timer; /* the time that it is set for */
};

/* No wait that falls due past the last time ever fires. */
static void set_timer(struct rack *rack, uint64_t returned) {
    bool runs = coast_waits(returned) && coast_due(returned) <= COAST_LAST_TIME;
    bool changed = runs != rack->timer_runs || (runs && coast_due(returned) != rack->timer);
    rack->timer_runs = runs;
    rack->timer = coast_due(returned);
    if (changed && runs) {
        printf("    timer set for ");
        print_time(rack->timer);
        printf("\n");
    }
    if (changed && !runs)
        printf("    timer off\n");
}

/* A host that cannot keep what it knows goes no further: no action is done that is not saved. */
static void keep(const struct rack *rack) {
    if (rack->path == NULL || write_kept(rack->path, &rack->kept))
        return;
    dprintf(ERRORS, "rack: %s cannot be written\n", rack->path);
    exit(1);
}

/* The actions that are not done yet; that one is done is noted before the next. */
static void act(struct rack *rack) {
    struct kept *kept = &rack->kept;
    while (kept->done < kept->count) {
        print_action(coast_action_at(kept->lent.room, kept->done), kept->channels);
        fflush(NULL);
        kept->done++;
        keep(rack);
    }
}

static void tell_answer(uint32_t answer) {
    printf("    ");
    print_answer(answer);
    printf("\n");
}

/* Does what was answered; false where it is a refusal, which leaves everything as it was. With its last event a line counts as
 * followed. A host that ended before that reads the line again, and does nothing twice: all before the last event are ticks, and
 * a wait that has fired is no longer due. */
static bool follow(struct rack *rack, uint64_t returned, bool last) {
    uint32_t answer = coast_answer(returned);
    if (answer > COAST_ANSWER_IGNORED) {
        tell_answer(answer);
        return false;
    }
    rack->kept.line = last ? rack->line : rack->line - 1u;
    rack->kept.count = (uint32_t)coast_count(returned);
    rack->kept.done = 0;
    keep(rack);
    if (rack->kept.count == 0u)
        tell_answer(answer);
    act(rack);
    set_timer(rack, returned);
    return true;
}

/* Hands in ticks until nothing is due at this time; false where the station refuses one. The line may have more to come. */
static bool tick(struct rack *rack, uint32_t time, bool more) {
    struct coast_lent *lent = &rack->kept.lent;
    bool due, accepted;
    do {
        uint64_t returned = coast_tick(lent->station, sizeof lent->station, time, lent->room, sizeof lent->room);
        due = coast_waits(returned) && coast_due(returned) <= time;
        accepted = follow(rack, returned, !due && !more);
    } while (accepted && due);
    return accepted;
}

/* When the timer rings, as late as it does. A wait that was due when it last rang is handed in at that time: the host may have
 * ended between two ticks. */
static uint64_t ring_time(const struct rack *rack) {
    return rack->timer <= rack->kept.rung ? rack->kept.rung : (uint64_t)rack->timer + rack->kept.late;
}

/* Lets the timer ring up to this time. */
static void pass_time(struct rack *rack, uint32_t until) {
    uint32_t most = until < COAST_LAST_TIME ? until : COAST_LAST_TIME;
    while (rack->timer_runs && ring_time(rack) <= most) {
        rack->kept.rung = (uint32_t)ring_time(rack);
        printf("* ");
        print_time(rack->kept.rung);
        printf(": the timer rings\n");
        tick(rack, rack->kept.rung, true);
    }
}

/* The slot of a channel; one that is too high where no slot has it. */
static uint32_t slot_of(const struct kept *kept, uint32_t channel) {
    uint32_t slot = 0;
    while (kept->channels[slot] != 0u && kept->channels[slot] != channel)
        slot++;
    return slot;
}

static uint64_t hand_in(struct rack *rack, const struct order *order) {
    uint8_t *station = rack->kept.lent.station, *room = rack->kept.lent.room;
    size_t size = sizeof rack->kept.lent.station, room_size = sizeof rack->kept.lent.room;
    uint32_t slot = slot_of(&rack->kept, order->channel);
    if (order->kind == ON_SLOT)
        return order->event(station, size, order->time, slot, room, room_size);
    if (order->kind == FROM_ASHORE)
        return coast_call_from_ashore(
            station, size, order->time, order->number, order->mode, order->bytes, order->count, room, room_size);
    if (order->channel == CALLING_CHANNEL)
        return coast_heard_on_channel_70(station, size, order->time, order->bytes, order->count, room, room_size);
    return coast_heard_on_slot(station, size, order->time, slot, order->bytes, order->count, room, room_size);
}

/* Where a wait is due the timer is late: the ticks come first, and then the event once more. A caller ashore who gets no slot is
 * the host's to turn away: a refusal has no actions. */
static void happen(struct rack *rack, const struct order *order) {
    uint64_t returned = hand_in(rack, order);
    bool accepted = follow(rack, returned, true);
    if (coast_answer(returned) == COAST_ANSWER_WAIT_DUE && tick(rack, order->time, true)) {
        printf("    the event once more:\n");
        accepted = follow(rack, hand_in(rack, order), true);
    }
    if (order->kind == FROM_ASHORE && !accepted)
        printf("    the caller is turned away\n");
}

static void set_up(struct rack *rack, const struct order *order) {
    struct kept *kept = &rack->kept;
    uint64_t returned = coast_set_up(order->number, order->bytes, order->count, kept->lent.station, sizeof kept->lent.station);
    if (coast_answer(returned) == COAST_ANSWER_DONE) {
        kept->rung = 0;
        kept->identity = order->number;
        for (size_t i = 0; i <= MOST_SLOTS; i++)
            kept->channels[i] = i < order->count ? order->bytes[i] : 0u;
    }
    follow(rack, returned, true);
}

static void obey(struct rack *rack, const struct order *order, const char *text) {
    if (order->kind != SET_UP)
        pass_time(rack, order->time);
    printf("> %s\n", text);
    switch (order->kind) {
    case SET_UP: set_up(rack, order); break;
    case TICK: tick(rack, order->time, false); break;
    case LATE: rack->kept.late = order->number; break;
    default: happen(rack, order);
    }
}

/* Goes on from the station that was kept, if there is one; false where it is damaged. */
static bool come_back(struct rack *rack) {
    const struct coast_lent *lent = &rack->kept.lent;
    enum found found = rack->path == NULL ? NOTHING : read_kept(rack->path, &rack->kept);
    if (found == DAMAGED)
        dprintf(ERRORS, "rack: %s is damaged, of another version, or cannot be read\n", rack->path);
    if (found != WHOLE)
        return found == NOTHING;
    printf("kept: goes on from ");
    print_time(coast_time(coast_clock(lent->station, sizeof lent->station)));
    printf(", behind line %u\n", (unsigned)rack->kept.line);
    act(rack);
    set_timer(rack, coast_next_due(lent->station, sizeof lent->station));
    return true;
}

/* One line of the feed. */
static void play(struct rack *rack, const struct line *line) {
    struct order order;
    if (line->unreadable != NULL)
        printf("line %u cannot be read (%s): skipped\n", (unsigned)rack->line, line->unreadable);
    else if (says_nothing(line))
        printf("%s\n", line->text);
    else if (read_order(line, rack->kept.identity, &order))
        obey(rack, &order, line->text);
    else
        printf("line %u is not understood: skipped\n", (unsigned)rack->line);
    fflush(NULL);
}

int main(int count, char **arguments) {
    struct rack rack = {.path = count > 1 ? arguments[1] : NULL};
    struct line line;
    if (!come_back(&rack))
        return 1;
    uint32_t followed = rack.kept.line;
    for (rack.line = 1; next_line(&line); rack.line++)
        if (rack.line > followed)
            play(&rack, &line);
    return 0;
}
