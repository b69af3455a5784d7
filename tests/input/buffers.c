#define _GNU_SOURCE
#include "buffers.h"

#include <stdio.h>
#include <stdlib.h>
#include <string.h>
#include <sys/mman.h>

enum { AROUND = 0x5a, NEAR = 48, GUARD = 4096 };

arena new_arena(void) {
    uint8_t *pages = mmap(NULL, GUARD + ROOM + GUARD, PROT_NONE, MAP_PRIVATE | MAP_ANONYMOUS, -1, 0);
    if (pages == MAP_FAILED || mprotect(pages + GUARD, ROOM, PROT_READ | PROT_WRITE) != 0) {
        perror("no pages");
        exit(3);
    }
    memset(pages + GUARD, AROUND, ROOM);
    return (arena){pages + GUARD, pages + GUARD, 0};
}

uint8_t *lend(arena *a, size_t length, bool at_end) {
    memset(a->at, AROUND, a->length);
    a->at = at_end ? a->pages + ROOM - length : a->pages;
    a->length = length;
    return a->at;
}

static bool is_around(const uint8_t *from, const uint8_t *to) {
    static uint8_t pattern[ROOM];
    if (pattern[0] != AROUND) {
        memset(pattern, AROUND, ROOM);
    }
    return memcmp(from, pattern, (size_t)(to - from)) == 0;
}

void clean(arena *a) {
    memset(a->pages, AROUND, ROOM);
    a->length = 0;
}

bool untouched(const arena *a, bool all) {
    const uint8_t *start = a->pages, *end = a->pages + ROOM, *behind = a->at + a->length;
    if (!all) {
        start = a->at - start > NEAR ? a->at - NEAR : start;
        end = end - behind > NEAR ? behind + NEAR : end;
    }
    return is_around(start, a->at) && is_around(behind, end);
}
