// Buffers between two pages that nobody may touch: an access before or behind one faults, or is seen by the bytes around it.
#ifndef BUFFERS_H
#define BUFFERS_H

#include <stdbool.h>
#include <stddef.h>
#include <stdint.h>

enum { ROOM = 8192 };

typedef struct {
    uint8_t *pages;
    // the buffer that is lent now
    uint8_t *at;
    size_t length;
} arena;

arena new_arena(void);

// Lends a buffer of so many bytes at the very end of the pages, or at their very start.
uint8_t *lend(arena *a, size_t length, bool at_end);

// Makes all bytes as they were at first.
void clean(arena *a);

// Whether the bytes around the buffer are as they were; `all` of them, or only those that are near.
bool untouched(const arena *a, bool all);

#endif
