// What each exported function should answer and leave, written from document 01 and from the meaning of plans. Total: any bytes, any
// handle, any argument, any plan.
#ifndef MODEL_H
#define MODEL_H

#include "blackboxlog.h"

#include <stdbool.h>

// Whether a handle can be a log of a medium of `length` bytes.
bool model_possible(bbl_handle handle, size_t length);

// The smaller of the two rooms, of a possible handle.
uint64_t model_room(bbl_handle handle);

bbl_reply model_open(const uint8_t *medium, size_t length);

// What planning answers, but for the number of steps: that is 0 where it refuses, and otherwise the plan's affair. A plan needs
// `needed` words.
bbl_reply model_plan_setup(size_t length, size_t words, size_t needed);
bbl_reply model_plan_append(size_t length, bbl_handle handle, uint64_t count, size_t words, size_t needed);
bbl_reply model_plan_advance(size_t length, bbl_handle handle, uint64_t position, size_t words, size_t needed);

// What an accepted operation leaves: the header and the selector of the new handle, and before that the bytes behind the old tail.
void model_commit(uint8_t *medium, bbl_handle next);
void model_append(uint8_t *medium, bbl_handle handle, const uint8_t *bytes, uint64_t count);

// One step, also of a plan that was never planned: what it answers; it is made on the medium.
bbl_stepped model_step(uint8_t *medium, size_t length, const uint64_t *plan, size_t words, const uint8_t *bytes, size_t count,
                       uint64_t i);

// A read; it is made on `out`.
bbl_reply model_read(const uint8_t *medium, size_t length, bbl_handle handle, uint64_t position, uint8_t *out, size_t count);

bbl_reply model_ask(size_t length, bbl_handle handle);

#endif
