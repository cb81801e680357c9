/* The station's entries of include/coast.h: the library's, the second implementation's, or ones that are wrong on purpose. */
#ifndef ENTRIES_H
#define ENTRIES_H

#include <stdbool.h>
#include <stddef.h>
#include <stdint.h>

/* The one list of the events: the letter of the script, the entry, and what it takes beside the station, the time and the
 * room; by_hand is on a slot too, but by the operator, who is never ignored, and to_ship takes a ship, a mode and digits. Those
 * that take symbols come first. */
#define EVENTS(X)                               \
    X('Q', heard_on_channel_70, with_symbols)   \
    X('W', heard_on_slot, on_slot_with_symbols) \
    X('C', call_from_ashore, to_ship)           \
    X('U', carrier_up, on_slot)                 \
    X('D', carrier_down, on_slot)               \
    X('P', dialling_ended, on_slot)             \
    X('O', off_hook, on_slot)                   \
    X('H', on_hook, on_slot)                    \
    X('M', take, by_hand)                       \
    X('F', give_back, by_hand)                  \
    X('T', tick, alone)

/* The entries that are no events, in the same way: those that ask take nothing but the station, and leave it. The script has a
 * letter for the first alone. */
#define SET_UP_LETTER 'S'
#define NEXT_DUE_LETTER 'N'
#define CLOCK_LETTER 'K'
#define OTHER_ENTRIES(X)                 \
    X(SET_UP_LETTER, set_up, setting_up) \
    X(NEXT_DUE_LETTER, next_due, asking) \
    X(CLOCK_LETTER, clock, asking)

#define EVERY_ENTRY(X) OTHER_ENTRIES(X) EVENTS(X)
#define ITS_LETTER(letter, entry, takes) letter,

typedef uint64_t alone_entry(uint8_t *station, size_t size, uint32_t time, uint8_t *room, size_t room_size);
typedef uint64_t on_slot_entry(uint8_t *station, size_t size, uint32_t time, uint32_t slot, uint8_t *room, size_t room_size);
typedef on_slot_entry by_hand_entry;
typedef uint64_t with_symbols_entry(
    uint8_t *station, size_t size, uint32_t time, const uint8_t *symbols, size_t count, uint8_t *room, size_t room_size);
typedef uint64_t on_slot_with_symbols_entry(uint8_t *station, size_t size, uint32_t time, uint32_t slot, const uint8_t *symbols,
    size_t count, uint8_t *room, size_t room_size);
typedef uint64_t to_ship_entry(uint8_t *station, size_t size, uint32_t time, uint32_t ship, uint32_t mode, const uint8_t *digits,
    size_t count, uint8_t *room, size_t room_size);
typedef uint64_t setting_up_entry(uint32_t identity, const uint8_t *channels, size_t count, uint8_t *station, size_t size);
typedef uint64_t asking_entry(const uint8_t *station, size_t size);

struct entries {
    const char *name;
#define AS_MEMBER(letter, entry, takes) takes##_entry *entry;
    EVERY_ENTRY(AS_MEMBER)
#undef AS_MEMBER
};

/* ---- library.c: the library's entries, through its header ---- */
extern const struct entries library;

/* What tests/stations holds against the second implementation: the library, or what is defined in place of library.c. */
extern const struct entries *const tried[];
extern const size_t tried_count;

/* ---- entries.c ---- */
bool is_event(char letter);
bool only_asks(char letter);
bool is_by_hand(char letter);
bool takes_slot(char letter);
bool takes_symbols(char letter);
bool takes_ship(char letter);

/* What an entry may be handed. For a set-up the slot is the identity, and the symbols are the channels; for a call from ashore
 * they are the digits. */
struct handed {
    uint32_t time, slot;
    const uint8_t *symbols;
    size_t count;
    uint32_t ship, mode;
};

struct lent_bytes {
    uint8_t *station;
    size_t size;
    uint8_t *room;
    size_t room_size;
};

/* Calls the entry of a letter with what it takes; gives what it returned, or for another letter what no entry returns. */
uint64_t call_entry(const struct entries *to, char letter, const struct handed *handed, const struct lent_bytes *lent);

#endif
