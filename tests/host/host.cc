// A host in C++17: sets a station up, hands in each event once, reads a sequence, writes it again and finds it.
#include "../../include/coast_words.h"
#include "../c/checked.h"
#include "../c/entries.c"
#include "../c/library.c"

extern "C" int printf(const char *, ...);
extern "C" int memcmp(const void *, const void *, size_t);

namespace {

class Rack {
public:
    uint64_t set_up(uint32_t coast, uint8_t channel) { return call(SET_UP_LETTER, {0, coast, &channel, 1, 0, 0}); }

    // On slot 0, with document 01's request P1; its symbols are no digits.
    uint64_t happens(char letter, uint32_t time) { return call(letter, {time, 0, checked[0], CHECKED_LENGTH, 200056789, 101}); }

    uint64_t next_due() { return call(NEXT_DUE_LETTER, {}); }

    uint64_t clock() { return call(CLOCK_LETTER, {}); }

    const uint8_t *action(size_t place) const { return coast_action_at(lent.room, place); }

private:
    uint64_t call(char letter, const handed &what) {
        const lent_bytes bytes = {lent.station, sizeof lent.station, lent.room, sizeof lent.room};
        return call_entry(&library, letter, &what, &bytes);
    }

    coast_lent lent = {};
};

// The operator finds the slot not free, a caller's number has too many digits, and all else is accepted.
bool as_wanted(char letter, uint32_t answer) {
    if (is_by_hand(letter))
        return answer == COAST_ANSWER_OPERATOR;
    return takes_ship(letter) ? answer == COAST_ANSWER_BAD_NUMBER : answer <= COAST_ANSWER_IGNORED;
}

// P1 is offered the channel, and nobody else is waited for. The tick comes last.
bool plays_events() {
    static const char letters[] = {EVENTS(ITS_LETTER)};
    Rack rack;
    uint32_t time = 100;
    bool good = coast_answer(rack.set_up(2001234, 26)) == COAST_ANSWER_DONE;
    for (char letter : letters) {
        const uint32_t answer = coast_answer(rack.happens(letter, time++));
        good = good && as_wanted(letter, answer);
    }
    const uint64_t due = rack.next_due(), clock = rack.clock();
    printf("cpp_host: %s, %s\n", coast_action_words(coast_action_kind(rack.action(0))),
        coast_action_words(coast_action_kind(rack.action(1))));
    return good && coast_waits(due) && coast_due(due) == 261 && coast_answer(clock) == COAST_ANSWER_DONE &&
           coast_time(clock) == time - 1 && coast_action_kind(rack.action(1)) == COAST_ACTION_SEND_CHANNEL_70;
}

bool reads_and_writes() {
    uint8_t meaning[COAST_MEANING_SIZE], symbols[COAST_LONGEST_SEQUENCE];
    char number[COAST_NUMBER_TEXT];
    const uint32_t read = coast_read_sequence(checked[0], CHECKED_LENGTH, meaning, sizeof meaning);
    const uint32_t written = coast_write_sequence(meaning, sizeof meaning, symbols, sizeof symbols);
    printf("cpp_host: %s, number %s\n", coast_answer_words(read),
        coast_digits_text(meaning + COAST_AT_DIGITS, meaning[COAST_AT_DIGIT_COUNT], number));
    return coast_count(written) == CHECKED_LENGTH && memcmp(symbols, checked[0], CHECKED_LENGTH) == 0;
}

// Nothing on the first aerial, P1 on the second.
bool finds() {
    const uint64_t found = coast_find_sequence(nullptr, 0, checked[0], CHECKED_LENGTH);
    printf("cpp_host: %u symbols, %s\n", static_cast<unsigned>(coast_found_length(found)),
        coast_answer_words(coast_found_answer(found)));
    return coast_found_receiver(found) == 1 && coast_found_place(found) == 0 && coast_found_length(found) == CHECKED_LENGTH;
}

} // namespace

int main() {
    const bool played = plays_events(), read = reads_and_writes(), found = finds();
    return played && read && found ? 0 : 1;
}
