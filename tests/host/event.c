/* Script lines as document 01 lays them out, each with the entry that it stands for. */
#include "event.h"

extern int getchar(void);

#define NO_BYTE 255u /* what a channel or a digit becomes that no byte holds: as bad a one */

bool read_line(struct line *line) {
    int c = getchar();
    bool any = c >= 0;
    line->length = 0;
    line->too_long = false;
    for (; c >= 0 && c != '\n'; c = getchar()) {
        line->too_long = line->length == LINE_MOST;
        if (!line->too_long)
            line->text[line->length++] = (uint8_t)c;
    }
    return any;
}

/* A space and a decimal number from this place on, which moves behind it. */
static bool read_number(const struct line *line, size_t *at, uint32_t *number) {
    uint64_t value = 0;
    if (*at >= line->length || line->text[*at] != ' ')
        return false;
    size_t begin = ++*at;
    for (; *at < line->length && line->text[*at] >= '0' && line->text[*at] <= '9'; ++*at) {
        value = value * 10u + (uint64_t)(line->text[*at] - '0');
        if (value > UINT32_MAX)
            return false;
    }
    *number = (uint32_t)value;
    return *at > begin;
}

/* Symbols must be bytes; a channel or a digit may be any number, and is then judged by the library. */
static bool read_list(const struct line *line, size_t *at, struct event *event, uint8_t *list) {
    uint32_t number = 0;
    while (*at < line->length) {
        if (!read_number(line, at, &number) || (number > UINT8_MAX && takes_symbols(event->letter)))
            return false;
        list[event->count++] = (uint8_t)(number > UINT8_MAX ? NO_BYTE : number);
    }
    return true;
}

bool read_event(const struct line *line, struct event *event, uint8_t *list) {
    char letter = line->length == 0u ? '\0' : (char)line->text[0];
    bool set_up = letter == SET_UP_LETTER, listed = set_up || takes_symbols(letter) || takes_ship(letter);
    size_t at = 1;
    *event = (struct event){.letter = letter, .list = list};
    if (line->too_long || !(set_up || is_event(letter)) || !read_number(line, &at, &event->number))
        return false;
    if (takes_slot(letter) && !read_number(line, &at, &event->slot))
        return false;
    if (takes_ship(letter) && !(read_number(line, &at, &event->ship) && read_number(line, &at, &event->mode)))
        return false;
    if (listed && !read_list(line, &at, event, list))
        return false;
    return at == line->length;
}

uint64_t hand_in(const struct entries *to, const struct event *event, const struct lent_bytes *lent) {
    uint32_t slot = event->letter == SET_UP_LETTER ? event->number : event->slot;
    struct handed handed = {event->number, slot, event->list, event->count, event->ship, event->mode};
    return call_entry(to, event->letter, &handed, lent);
}
