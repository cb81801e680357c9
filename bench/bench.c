/* Times the library and the second implementation, in one run and on the same bytes, through the same calls. */
#include "bench.h"

extern int printf(const char *, ...);

static bool time_transmissions(void) {
    draw_transmissions();
    bool same = time_both("a transmission written", write_transmissions, drawn_transmissions);
    same = time_both("a whole transmission read", read_whole, drawn_transmissions) && same;
    same = time_both("one with bit noise read", read_noisy, drawn_transmissions) && same;
    return time_both("one among strays read", read_among_strays, drawn_transmissions) && same;
}

static bool time_receivers(void) {
    draw_receivers();
    bool same = time_both("a KiB of noise searched, by the second", find_in_seconds, drawn_noise);
    same = time_both("a KiB of noise searched, by 64 KiB", find_in_long_pieces, drawn_noise) && same;
    same = time_both("a KiB of noise searched, by the MiB", find_in_longer_pieces, drawn_noise) && same;
    return time_both("a second searched that has a call", find_calls, drawn_calls) && same;
}

int main(void) {
    draw_sequences();
    bool same = time_both("a read", read_all, drawn);
    same = time_both("a write", write_all, drawn) && same;
    same = time_both("a write to a room that no cache holds", write_scattered, scattered_rooms) && same;
    same = time_transmissions() && same;
    same = time_receivers() && same;
    if (!record_events()) {
        printf("bench: no events\n");
        return 1;
    }
    (void)hand_in_all(LIBRARY); /* so that both find the room as the last pass leaves it */
    same = time_both("an event", hand_in_all, event_count()) && same;
    return time_growth() && same ? 0 : 1;
}
