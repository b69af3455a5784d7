// Wrong ways to write, which the tracer must flag. They are part of no archive that is shipped: the first two are control.rt, proved
// and compiled by Rattle; the others are C.
#ifndef CONTROLS_H
#define CONTROLS_H

#include <stddef.h>
#include <stdint.h>

// Two operations in a row: the second header (a, b, c, d), the selector, the first header (d, c, b, a), the selector.
void control_two_operations(uint8_t *medium, size_t length, uint64_t a, uint64_t b, uint64_t c, uint64_t d);

// The selector by the copy that serves bytes of any number.
void control_copy(uint8_t *medium, size_t length, const uint8_t *selector, size_t count);

// Two operations in a row, each a header and then the selector, by plain stores.
void two_operations(uint64_t *medium, const uint64_t second_header[4], const uint64_t first_header[4]);

// A generic copy, byte by byte.
void generic_copy(uint8_t *to, const uint8_t *from, size_t length);

// Changes one byte of a word, and writes the word back.
void word_for_a_byte(uint32_t *to, uint8_t byte);

// Adds to a number in place.
void add_in_place(uint64_t *to, uint64_t number);

#endif
