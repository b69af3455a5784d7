#include "format.h"

// The polynomial 0x42f0e1eba9ea3693 with its bits reflected.
static const uint64_t POLYNOMIAL = 0xc96c5795d7870f42ull;

static uint64_t turned(uint64_t x) {
    for (int bit = 0; bit < 8; bit++) {
        x = x & 1 ? x >> 1 ^ POLYNOMIAL : x >> 1;
    }
    return x;
}

uint64_t crc64(const uint8_t *bytes, size_t length) {
    static uint64_t table[256];
    if (table[1] == 0) {
        for (int byte = 0; byte < 256; byte++) {
            table[byte] = turned((uint64_t)byte);
        }
    }
    uint64_t x = ~0ull;
    for (size_t i = 0; i < length; i++) {
        x = x >> 8 ^ table[(x ^ bytes[i]) & 0xff];
    }
    return ~x;
}

void put_header(uint8_t *to, uint64_t head, uint64_t tail, uint64_t size) {
    put_number(to, HEAD_IN, head);
    put_number(to, TAIL_IN, tail);
    put_number(to, SIZE_IN, size);
    put_number(to, 0, crc64(to + HEAD_IN, HEADER_LENGTH - HEAD_IN));
}

void put_log(uint8_t *medium, uint64_t ring, uint64_t head, uint64_t tail, bool second) {
    put_header(medium + header_at(second), head, tail, ring);
    put_number(medium, SELECTOR_AT, selector_of(second));
}

void put_background(uint8_t *medium, size_t length) {
    for (size_t i = 0; i < length; i++) {
        medium[i] = (uint8_t)(7 * i + 3);
    }
}

uint8_t byte_of(uint64_t ring, uint64_t position) {
    uint64_t mixed = position * 0x9e3779b97f4a7c15ull;
    if (ring > 88) {
        mixed = (mixed ^ mixed >> 29) * 0xbf58476d1ce4e5b9ull;
    }
    return (uint8_t)(mixed >> 56);
}

void forge(uint8_t *medium, uint64_t ring, uint64_t head, uint64_t tail, bool second) {
    put_background(medium, RING_AT + ring);
    for (uint64_t position = head; position != tail; position++) {
        medium[place(ring, position)] = byte_of(ring, position);
    }
    put_log(medium, ring, head, tail, second);
}
