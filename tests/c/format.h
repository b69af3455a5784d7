// The format of document 01 §1, written from the document: where everything stands, and a checksum of its own.
#ifndef FORMAT_H
#define FORMAT_H

#include <stdbool.h>
#include <stddef.h>
#include <stdint.h>

enum { SELECTOR_AT = 0, FIRST_HEADER_AT = 8, SECOND_HEADER_AT = 40, RING_AT = 72, HEADER_LENGTH = 32, PIECE = 8 };

// within a header
enum { HEAD_IN = 8, TAIL_IN = 16, SIZE_IN = 24 };

#define FIRST 0xa32842d19001605eull
#define SECOND 0xab21aa73069531b7ull

static inline uint64_t selector_of(bool second) {
    return second ? SECOND : FIRST;
}

static inline size_t header_at(bool second) {
    return second ? SECOND_HEADER_AT : FIRST_HEADER_AT;
}

// "Numbers are unsigned 64-bit, stored little-endian."
static inline uint64_t number_at(const uint8_t *medium, size_t at) {
    uint64_t number = 0;
    for (int i = 7; i >= 0; i--) {
        number = number << 8 | medium[at + i];
    }
    return number;
}

static inline void put_number(uint8_t *medium, size_t at, uint64_t number) {
    for (int i = 0; i < 8; i++) {
        medium[at + i] = (uint8_t)(number >> 8 * i);
    }
}

// "Position p is stored at 72 + p mod size."
static inline size_t place(uint64_t size, uint64_t position) {
    return RING_AT + (size_t)(position % size);
}

// CRC-64/XZ, bit by bit from its definition on first use, then by a table.
uint64_t crc64(const uint8_t *bytes, size_t length);

// The 32 bytes of a header, with a right checksum.
void put_header(uint8_t *to, uint64_t head, uint64_t tail, uint64_t size);

// Makes a medium of 72 + ring bytes a log with these numbers: the header and the selector, nothing else.
void put_log(uint8_t *medium, uint64_t ring, uint64_t head, uint64_t tail, bool second);

// What a medium holds before anything is written to it: no selector, no header.
void put_background(uint8_t *medium, size_t length);

// The byte that is appended at a position. On rings of up to 88 bytes it is unlike those of a ring's length before and after
// it, so that an old byte is never like the new one at its place; on larger ones it looks random.
uint8_t byte_of(uint64_t ring, uint64_t position);

// A medium with a log whose ring holds `byte_of` its positions. The other header is background.
void forge(uint8_t *medium, uint64_t ring, uint64_t head, uint64_t tail, bool second);

#endif
