// Every cut: a log is driven through cases, each operation is cut wherever it can be, and what is left is opened again by the
// same log. It must show the log before the operation or the one after it.
#ifndef TESTER_H
#define TESTER_H

#include "cases.h"
#include "logs.h"

enum { WHAT = 512 };

typedef struct {
    const log_under_test *log;
    // how many operations, and how many cuts of them
    uint64_t operations, cuts;
    // the case under way, and what is wrong with it
    test_case now;
    char what[WHAT];
} tester;

tester tester_of(const log_under_test *log);

// Each answers whether nothing went wrong; if something did, `now` and `what` say what.

// All sequences of up to `longest` actions after set-up, on each ring, with every cut of the last.
bool try_sequences(tester *t, const uint64_t *rings, unsigned count, unsigned longest);

// Every cut of one change on every shape of a log.
bool try_shapes(tester *t, const uint64_t *rings, unsigned count);

// One change on every shape, cut at every place, and then an action, cut at every place.
bool try_cut_twice(tester *t, const uint64_t *rings, unsigned count);

// One case, with every cut of each of its operations that is not itself cut.
bool try_case(tester *t, const test_case *c);

#endif
