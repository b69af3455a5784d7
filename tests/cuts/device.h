// Writes, flushes, and what a cut leaves of them: of the writes since the last flush each piece of 8 bytes may have arrived or
// not, in any order; what was flushed is there; what comes later never happened. With a flush after each write this is
// document 01 §2: the write under way is torn, all earlier ones are there.
#ifndef DEVICE_H
#define DEVICE_H

#include <stdbool.h>
#include <stddef.h>
#include <stdint.h>

enum { LARGEST_RING = 24, LARGEST = 72 + LARGEST_RING, PIECES = LARGEST / 8, STEPS = 16 };

typedef struct {
    bool flush;
    size_t at, length;
    uint8_t bytes[LARGEST];
} step;

// A medium as the power could find it: what is there for good, and the writes since the last flush.
typedef struct {
    size_t length;
    uint8_t kept[LARGEST];
    unsigned count;
    step pending[STEPS];
} device;

// A cut: the first `done` writes of the operation and all earlier ones were flushed; of the pending ones piece number
// `pieces[i]` has its value number `values[i]`, where 0 is what is there for good.
typedef struct {
    unsigned done, count;
    uint8_t pieces[PIECES], values[PIECES];
} cut;

void make_still(device *d, const uint8_t *medium, size_t length);

void put_step(uint8_t *medium, const step *s);

// The device after these steps.
void settle(device *d, const step *steps, unsigned count);

// Calls `visit` with every medium that a cut can leave while these steps are carried out, each once, up to the first for which
// it answers false; answers whether there was none.
bool each_cut(const device *before, const step *steps, unsigned count,
              bool visit(void *context, const uint8_t *left, const cut *c), void *context);

#endif
