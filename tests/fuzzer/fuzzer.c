// What libFuzzer calls: a case of tests/input, made of the bytes that it hands over, judged by the same model. It stops at the first that
// goes wrong. With -DWRONG a log with one fault is tried in the place of the archive: the fuzzer must find it.
#include "chance.h"
#include "format.h"
#include "fuzz.h"

#include <stdio.h>
#include <stdlib.h>

const uint8_t *handed_over;
size_t handed_over_count;

#ifdef WRONG
// Takes for a log what keeps as many bytes as the ring has.
static bbl_reply opens_full(const uint8_t *medium, size_t length) {
    bbl_reply reply = bbl_open(medium, length);
    if (reply.code == BBL_TOO_FULL && reply.other - reply.number == length - RING_AT) {
        reply.code = BBL_OK;
    }
    return reply;
}

static const log_under_test tried = {
    "wrong", opens_full, bbl_plan_setup, bbl_plan_append, bbl_plan_advance, bbl_step, bbl_read, bbl_ask, bbl_make_step,
};
#else
static const log_under_test tried = THE_ARCHIVE;
#endif

int LLVMFuzzerTestOneInput(const uint8_t *data, size_t size);

int LLVMFuzzerTestOneInput(const uint8_t *data, size_t size) {
    static fuzz f;
    if (f.log == NULL) {
        f = fuzz_of(&tried);
    }
    if (size == 0) {
        return 0;
    }
    // the first byte says which of the functions that write is carried out
    handed_over = data + 1;
    handed_over_count = size - 1;
    if (fuzz_cases(&f, data[0], data[0] + 1ull) == data[0]) {
        fprintf(stderr, "wrong: %s\n", f.wrong);
        abort();
    }
    return 0;
}
