/* What ships send, as it should be, mistaken, and spoilt. */
#include "rehearsal.h"

static void new_number(struct meaning *m) {
    m->count = (uint8_t)(1u + chance(MOST_DIGITS));
    for (size_t i = 0; i < MOST_DIGITS; i++)
        m->digits[i] = i < m->count ? (uint8_t)chance(10) : 0u;
}

uint32_t any_coast(void) {
    static const uint32_t edges[] = {2000000u, 7999999u, 2001234u};
    return one_in(2) ? edges[chance(3)] : 2000000u + chance(6000000u);
}

struct meaning new_request(uint32_t ship) {
    struct meaning m = {.self = ship};
    m.first = one_in(24) ? DATA : one_in(2) ? SIMPLEX : DUPLEX;
    m.second = one_in(6) ? (uint8_t)(100u + chance(27)) : NO_INFORMATION;
    m.end = RQ;
    new_number(&m);
    return to_ours(&stage.station, m);
}

struct meaning varied(struct meaning request) {
    switch (chance(5)) {
    case 0: request.first = request.first == SIMPLEX ? DUPLEX : SIMPLEX; break;
    case 1: request.second = (uint8_t)(100u + chance(27)); break;
    case 2: request.first = one_in(4) ? DATA : request.first; break;
    case 3: request.digits[request.count - 1u] = (uint8_t)chance(10); break;
    default: new_number(&request); break;
    }
    return request;
}

struct meaning as_working_call(struct meaning request) {
    if (one_in(4))
        request = varied(request);
    request.first = request.first == DATA ? DUPLEX : request.first;
    request.end = OTHER_END;
    return request;
}

struct meaning as_ring_back_answer(struct meaning request, uint8_t channel) {
    if (one_in(4))
        request = varied(request);
    request.first = request.first == DATA ? SIMPLEX : request.first;
    request.kind = FIELD_CHANNEL;
    request.channel = channel;
    request.end = BQ;
    return request;
}

struct meaning as_end(struct meaning request) {
    if (one_in(8))
        new_number(&request);
    request.first = END_OF_CALL;
    request.second = NO_INFORMATION;
    request.end = RQ;
    return request;
}

struct meaning as_unable(struct meaning request) {
    if (one_in(4))
        new_number(&request);
    request.first = UNABLE;
    request.second = one_in(4) ? NO_INFORMATION : (uint8_t)(100u + chance(10));
    request.end = BQ;
    return request;
}

/* The field of its telecommand that is not wanted there: a channel, a duration (90 0 26 among them), or none. */
static void other_field(struct meaning *m) {
    bool none = m->kind == FIELD_NONE && m->first != UNABLE;
    bool channel = none && m->first != END_OF_CALL, duration = none && m->first == END_OF_CALL;
    m->kind = channel ? FIELD_CHANNEL : duration ? FIELD_DURATION : FIELD_NONE;
    m->channel = channel ? stage.station.channels[0] : 0u;
    m->hours = duration ? (uint8_t)(one_in(2) ? 90u : chance(100)) : 0u;
    m->minutes = duration && !one_in(2) ? (uint8_t)chance(60) : 0u;
    m->seconds = duration ? (uint8_t)(one_in(2) ? 26u : chance(60)) : 0u;
}

struct meaning mistaken(struct meaning m) {
    static const uint8_t ends[] = {RQ, BQ, OTHER_END};
    uint32_t address = m.address;
    switch (chance(8)) {
    case 0: m.end = ends[chance(3)]; break;
    case 1: m.self = stage.ships[chance(stage.ship_count)]; break;
    case 2: m.address = 2000000u + chance(6000000u); break;
    case 3: /* the station's own words, heard */
        m.address = m.self;
        m.self = address;
        break;
    case 4: other_field(&m); break;
    case 5: /* another channel of the station, or of none */
        m.channel = m.kind == FIELD_CHANNEL ? stage.station.channels[chance(stage.station.channel_count)] : 0u;
        break;
    case 6: m.first = m.first == SIMPLEX ? DUPLEX : m.first == DUPLEX ? DATA : m.first; break;
    default: /* an end of call in place of anything, and the other way about */
        m.first = m.first == END_OF_CALL ? SIMPLEX : m.kind == FIELD_NONE ? END_OF_CALL : m.first;
        m.second = NO_INFORMATION;
    }
    return m;
}

void put_sequence(struct event *event, const struct meaning *m) {
    if (second_write(m, event->symbols, LONGEST_SEQUENCE, &event->count) != 0)
        event->count = draw_sequence(event->symbols);
}

void put_stray(struct event *event) {
    struct meaning m;
    event->count = draw_sequence(event->symbols);
    if (one_in(4) || second_read(event->symbols, event->count, &m) != 0)
        return;
    bool from_a_ship = second_is_ship(m.self);
    m.self = stage.ships[chance(stage.ship_count)];
    m = to_ours(&stage.station, m);
    if (!from_a_ship)
        m = exchanged(&m);
    put_sequence(event, &m);
}

/* One or more things wrong, the check put right or not. */
void spoil_sequence(struct event *event) {
    do
        event->count = damage_sequence(event->symbols, event->count);
    while (one_in(3) && event->count >= SHORTEST_SEQUENCE && event->count <= LONGEST_SEQUENCE);
    if (!one_in(6))
        put_check_right(event->symbols, event->count);
}
