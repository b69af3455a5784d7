// Stores against the plan that they carry out.
#ifndef GROUPS_H
#define GROUPS_H

#include "report.h"
#include "tracer.h"

typedef struct {
    size_t at, length;
    const uint8_t *bytes;
} put;

// Whether the stores that were traced carry out these puts, one group after the other in this order: each store lies within its
// put and has its bytes, each put is covered before the next begins, the selector is one aligned store of 8 bytes, each piece of
// a header is within one store, and none depends on what was there before. Says what is wrong.
bool in_groups(const put *puts, unsigned count, char text[TEXT]);

#endif
