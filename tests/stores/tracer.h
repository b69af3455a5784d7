// A tracer in process: it sees each store of a function to a medium, with its extent and its value, in order.
//
// The pages of the medium are read-only while a function is traced. A store faults; the handler lets that one instruction run
// with the trap flag set, twice: on the bytes that are there, and on their complements. A byte that is the same afterwards was
// stored; one that is still different in every bit was not; any other depends on what was there before, so that the instruction
// reads the medium, changes it and writes it back.
#ifndef TRACER_H
#define TRACER_H

#include <stdbool.h>
#include <stddef.h>
#include <stdint.h>

enum { PAGE = 4096, REGION = 2 * PAGE, STORES = 8192, WIDEST = 64 };

typedef struct {
    size_t at, length;
    uint8_t bytes[WIDEST];
    // the instruction also changed bytes by what they were, or registers by what it read; or what it stored is not one run
    bool reads, split;
} store;

// The stores that were seen.
extern store traced[STORES];
extern unsigned traced_count;

// Two pages that can be traced: new ones, or a file that is shared with others.
uint8_t *tracer_region(int file);

// From here on stores to the region are seen; before number `kill_at` of them, counted from 0, the process is killed.
enum { NEVER = 0x7fffffff };
void trace(uint8_t *region, unsigned kill_at);

void end_trace(void);

#endif
