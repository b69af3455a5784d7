#pragma GCC optimize("O3")
#include "controls.h"

#include "format.h"

#include <string.h>

void two_operations(uint64_t *medium, const uint64_t second_header[4], const uint64_t first_header[4]) {
    memcpy(medium + SECOND_HEADER_AT / 8, second_header, HEADER_LENGTH);
    medium[SELECTOR_AT / 8] = SECOND;
    memcpy(medium + FIRST_HEADER_AT / 8, first_header, HEADER_LENGTH);
    medium[SELECTOR_AT / 8] = FIRST;
}

// A compiler that sees through the loop may well make one store of eight bytes of it; this one must not.
__attribute__((noinline, optimize("no-tree-loop-distribute-patterns", "no-tree-vectorize"))) void generic_copy(uint8_t *to, const uint8_t *from, size_t length) {
    for (size_t i = 0; i < length; i++) {
        to[i] = from[i];
    }
}

void word_for_a_byte(uint32_t *to, uint8_t byte) {
    *(volatile uint32_t *)to = (*(volatile uint32_t *)to & ~0xffu) | byte;
}

void add_in_place(uint64_t *to, uint64_t number) {
    *to += number;
}
