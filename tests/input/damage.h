// Damage of valid media: each must be refused.
#ifndef DAMAGE_H
#define DAMAGE_H

#include "report.h"

#include <stddef.h>

// How much is tried, about: 1 or more.
extern unsigned damage_extent;

// Every run of up to 64 bits of the live header, in the order in which the CRC takes them: all patterns of short ones, random
// patterns of long ones.
bool bursts(char text[TEXT]);

// Every flip of up to three bits of the live header.
bool flips(char text[TEXT]);

// Random flips of four to seven bits of the live header.
bool more_flips(char text[TEXT]);

// Flips of up to 24 bits of the selector.
bool selector_flips(char text[TEXT]);

// Document 01's damage over the border between checksum and content: the checksum is right, the numbers are refused.
bool over_the_border(char text[TEXT]);

// One medium, by its length and its first 72 bytes in hexadecimal digits: what opening answers, and the model.
bool open_medium(size_t length, const char *digits, char text[TEXT]);

#endif
