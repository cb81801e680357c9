/* The second implementation's reader and writer on lent bytes: lays a meaning out in 32 bytes as include/coast.h says. */
#include "bytes.h"
#include "sequence.h"

#define MEANING_BYTES 32u
#define ROOM_SHORT 21u
#define MEANING_SHORT 22u

enum byte_at {
    ADDRESS_BYTE = 0,
    SELF_BYTE = 4,
    FIRST_BYTE = 8,
    SECOND_BYTE,
    KIND_BYTE,
    FIELD_BYTE,
    COUNT_BYTE = 14,
    END_BYTE,
    DIGITS_BYTE
};

static void put_identity(uint8_t *bytes, uint32_t identity) {
    for (size_t i = 0; i < 4u; i++)
        bytes[i] = (uint8_t)(identity >> (8u * i) & 255u);
}

static uint32_t get_identity(const uint8_t *bytes) {
    uint32_t identity = 0;
    for (size_t i = 4; i > 0u; i--)
        identity = identity << 8 | bytes[i - 1u];
    return identity;
}

/* Channel, 0, 0 or hours, minutes, seconds; the parts that the kind does not use are 0 in m. */
static void put_field(uint8_t *bytes, const struct meaning *m) {
    bytes[0] = m->kind == FIELD_CHANNEL ? m->channel : m->hours;
    bytes[1] = m->minutes;
    bytes[2] = m->seconds;
}

static void get_field(const uint8_t *bytes, struct meaning *m) {
    if (m->kind == FIELD_CHANNEL)
        m->channel = bytes[0];
    else
        m->hours = bytes[0];
    m->minutes = bytes[1];
    m->seconds = bytes[2];
}

static void put_meaning(uint8_t *bytes, const struct meaning *m) {
    put_identity(bytes + ADDRESS_BYTE, m->address);
    put_identity(bytes + SELF_BYTE, m->self);
    bytes[FIRST_BYTE] = m->first;
    bytes[SECOND_BYTE] = m->second;
    bytes[KIND_BYTE] = (uint8_t)m->kind;
    put_field(bytes + FIELD_BYTE, m);
    bytes[COUNT_BYTE] = m->count;
    bytes[END_BYTE] = m->end;
    for (size_t i = 0; i < MOST_DIGITS; i++)
        bytes[DIGITS_BYTE + i] = m->digits[i];
}

static struct meaning get_meaning(const uint8_t *bytes) {
    struct meaning m = {0};
    m.address = get_identity(bytes + ADDRESS_BYTE);
    m.self = get_identity(bytes + SELF_BYTE);
    m.first = bytes[FIRST_BYTE];
    m.second = bytes[SECOND_BYTE];
    m.kind = (enum field_kind)bytes[KIND_BYTE];
    get_field(bytes + FIELD_BYTE, &m);
    m.count = bytes[COUNT_BYTE];
    m.end = bytes[END_BYTE];
    for (size_t i = 0; i < MOST_DIGITS; i++)
        m.digits[i] = bytes[DIGITS_BYTE + i];
    return m;
}

uint32_t second_read_bytes(const uint8_t *symbols, size_t count, uint8_t *meaning, size_t size) {
    struct meaning m;
    if (size < MEANING_BYTES)
        return MEANING_SHORT;
    uint32_t answer = (uint32_t)second_read(symbols, count, &m);
    if (answer == 0u)
        put_meaning(meaning, &m);
    return answer;
}

uint32_t second_write_bytes(const uint8_t *meaning, size_t size, uint8_t *room, size_t room_size) {
    size_t written = 0;
    if (room_size < LONGEST_SEQUENCE)
        return ROOM_SHORT;
    if (size < MEANING_BYTES)
        return MEANING_SHORT;
    struct meaning m = get_meaning(meaning);
    uint32_t answer = (uint32_t)second_write(&m, room, room_size, &written);
    return answer + 256u * (uint32_t)written;
}
