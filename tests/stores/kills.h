// Runs of operations that end before any of their stores, and what is opened afterwards: the log after the operations that were
// answered, or after one more.
#ifndef KILLS_H
#define KILLS_H

#include "report.h"

#include <stdint.h>

// In one process: one operation on every shape of a log on small rings; its stores are traced, and every number of them is put
// on the medium before, and of the next every set of its pieces.
bool every_number_of_stores(uint8_t *region, bool is_long, char text[TEXT]);

// Processes that share a file as their medium and are killed before a store, for each store of their runs; then another process
// reads the file.
bool kill_at_stores(const char *file, unsigned kills, char text[TEXT]);

// One of these, by the seed of its run and the number of the store.
bool kill_once(const char *file, uint64_t seed, unsigned at, char text[TEXT]);

// The same without a tracer, killed after some milliseconds.
bool kill_at_any_time(const char *file, unsigned kills, char text[TEXT]);

#endif
