// A log under test: the archive's functions, or others in their place.
#ifndef UNDER_TEST_H
#define UNDER_TEST_H

#include "blackboxlog.h"

typedef struct {
    const char *name;
    bbl_reply (*open)(const uint8_t *, size_t);
    bbl_reply (*plan_setup)(const uint8_t *, size_t, uint64_t *, size_t);
    bbl_reply (*plan_append)(const uint8_t *, size_t, bbl_handle, uint64_t, uint64_t *, size_t);
    bbl_reply (*plan_advance)(const uint8_t *, size_t, bbl_handle, uint64_t, uint64_t *, size_t);
    bbl_stepped (*step)(uint8_t *, size_t, const uint64_t *, size_t, const uint8_t *, size_t, uint64_t);
    bbl_reply (*read)(const uint8_t *, size_t, bbl_handle, uint64_t, uint8_t *, size_t);
    bbl_reply (*ask)(const uint8_t *, size_t, bbl_handle);
    // a step as bbl_append, bbl_advance and bbl_setup of the header make it; NULL where there is no other way than `step`
    bbl_stepped (*make_step)(uint8_t *, size_t, const uint64_t *, size_t, const uint8_t *, size_t, uint64_t);
} log_under_test;

#define THE_ARCHIVE \
    { "archive", bbl_open, bbl_plan_setup, bbl_plan_append, bbl_plan_advance, bbl_step, bbl_read, bbl_ask, bbl_make_step }

#endif
