// Arbitrary input: any bytes, handles, arguments and plans, held to the model.
#ifndef FUZZ_H
#define FUZZ_H

#include "report.h"
#include "under_test.h"

enum { OPEN, PLAN_SETUP, PLAN_APPEND, PLAN_ADVANCE, STEP, READ, ASK, CRC64, FUNCTIONS };

enum { CODES = 13, WRONG_TEXT = 1024 };

typedef struct {
    const log_under_test *log;
    // media are no longer than this
    size_t limit;
    // how often each function answered each code
    uint64_t seen[FUNCTIONS][CODES];
    char wrong[WRONG_TEXT];
} fuzz;

fuzz fuzz_of(const log_under_test *log);

// The cases with these numbers; answers the first that goes wrong, or `to`. Each makes at least eight calls.
uint64_t fuzz_cases(fuzz *f, uint64_t from, uint64_t to);

// A case that goes wrong with a smaller medium, if there is one among the first so many: sets the limit, answers the case.
uint64_t fuzz_smaller(fuzz *f, uint64_t failed);

// Says the codes that some function never answered although it can; answers whether there are none.
bool all_codes_seen(const fuzz *f, char text[TEXT]);

#endif
