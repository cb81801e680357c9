/* Which entry a letter stands for, what it takes, and its call. */
#include "entries.h"

enum kind { setting_up, asking, alone, on_slot, by_hand, with_symbols, on_slot_with_symbols, to_ship, no_entry };

static enum kind kind_of(char letter) {
    switch (letter) {
#define AS_KIND(letter, entry, takes) \
    case letter: return takes;
        EVERY_ENTRY(AS_KIND)
    default: return no_entry;
    }
}

bool is_event(char letter) {
    return kind_of(letter) != no_entry && kind_of(letter) != setting_up && !only_asks(letter);
}

bool only_asks(char letter) {
    return kind_of(letter) == asking;
}

bool is_by_hand(char letter) {
    return kind_of(letter) == by_hand;
}

bool takes_slot(char letter) {
    return kind_of(letter) == on_slot || is_by_hand(letter) || kind_of(letter) == on_slot_with_symbols;
}

bool takes_symbols(char letter) {
    return kind_of(letter) == with_symbols || kind_of(letter) == on_slot_with_symbols;
}

bool takes_ship(char letter) {
    return kind_of(letter) == to_ship;
}

#define STATION lent->station, lent->size
#define SYMBOLS handed->symbols, handed->count
#define ROOM lent->room, lent->room_size
#define CALL_setting_up(entry) entry(handed->slot, SYMBOLS, STATION)
#define CALL_asking(entry) entry(STATION)
#define CALL_alone(entry) entry(STATION, handed->time, ROOM)
#define CALL_on_slot(entry) entry(STATION, handed->time, handed->slot, ROOM)
#define CALL_by_hand(entry) CALL_on_slot(entry)
#define CALL_with_symbols(entry) entry(STATION, handed->time, SYMBOLS, ROOM)
#define CALL_on_slot_with_symbols(entry) entry(STATION, handed->time, handed->slot, SYMBOLS, ROOM)
#define CALL_to_ship(entry) entry(STATION, handed->time, handed->ship, handed->mode, SYMBOLS, ROOM)

uint64_t call_entry(const struct entries *to, char letter, const struct handed *handed, const struct lent_bytes *lent) {
    switch (letter) {
#define AS_CALL(letter, entry, takes) \
    case letter: return CALL_##takes(to->entry);
        EVERY_ENTRY(AS_CALL)
    default: return UINT64_MAX;
    }
}
