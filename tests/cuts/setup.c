#include "setup.h"

#include "blackboxlog.h"
#include "cases.h"
#include "format.h"

#include <inttypes.h>
#include <string.h>

// What opens after a cut; a mixture is a log that is neither the old nor the new one.
typedef enum { OLD, NEW, DAMAGED, MIXTURE, SOMETHING_ELSE } found;

typedef struct {
    char *text;
    uint64_t counts[SOMETHING_ELSE + 1];
    found (*expected)(const uint8_t *before, const uint8_t *left, size_t length);
    bool at_rest;  // the cut comes when set-up is answered, not during it
    // the medium under way: its bytes, what opening answered before, and what it answers afterwards
    size_t length;
    uint8_t before[LARGEST];
    bbl_reply old, new;
} row;

static bool same_handle(bbl_handle a, bbl_handle b) {
    return memcmp(&a, &b, sizeof a) == 0;
}

static found opened(const row *r, const uint8_t *left) {
    bbl_reply reply = bbl_open(left, r->length);
    switch (reply.code) {
    case BBL_OK:
        return r->old.code == BBL_OK && same_handle(reply.handle, r->old.handle) ? OLD
               : same_handle(reply.handle, r->new.handle)                         ? NEW
                                                                                  : MIXTURE;
    case BBL_BAD_SELECTOR:
    case BBL_BAD_CHECKSUM:
        return DAMAGED;
    default:
        return SOMETHING_ELSE;
    }
}

static bool judge(void *context, const uint8_t *left, const cut *c) {
    row *r = context;
    found is = opened(r, left), should = r->expected(r->before, left, r->length);
    r->counts[is]++;
    if (is == should) {
        return true;
    }
    static const char *const names[] = {"the old log", "the new log", "damage", "a mixture", "something else"};
    say(r->text, "after %u flushed writes it opens as %s, and should as %s; the medium was", c->done, names[is],
        names[should]);
    for (size_t i = 0; i < r->length; i++) {
        say(r->text, " %02x", r->before[i]);
    }
    say(r->text, ", and is");
    for (size_t i = 0; i < r->length; i++) {
        say(r->text, " %02x", left[i]);
    }
    return false;
}

// Set-up's steps on the medium in `before`, without flush number `flush_left_out`, counted from 1; and what opening answers
// before and afterwards.
static unsigned flush_left_out;

static bool plan_set_up(row *r, uint8_t medium[LARGEST], step steps[STEPS], unsigned *count) {
    uint64_t plan[BBL_PLAN_WORDS];
    unsigned flushes = 0;
    memcpy(medium, r->before, r->length);
    bbl_reply reply = bbl_plan_setup(medium, r->length, plan, BBL_PLAN_WORDS);
    *count = 0;
    for (uint64_t i = 0; i < reply.steps; i++) {
        bbl_stepped done = bbl_step(medium, r->length, plan, BBL_PLAN_WORDS, medium, 0, i);
        if (i >= STEPS || done.code > BBL_STEP_FLUSH) {
            say(r->text, "step %" PRIu64 " of set-up answers code %" PRIu64, i, done.code);
            return false;
        }
        if (done.code == BBL_STEP_FLUSH && ++flushes == flush_left_out) {
            continue;
        }
        step *next = &steps[(*count)++];
        *next = (step){.flush = done.code == BBL_STEP_FLUSH, .at = done.at, .length = done.length};
        memcpy(next->bytes, medium + done.at, done.length);
    }
    r->old = bbl_open(r->before, r->length);
    r->new = bbl_open(medium, r->length);
    if (reply.code != BBL_OK || r->new.code != BBL_OK) {
        say(r->text, "set-up answers code %" PRIu64 ", opening afterwards %" PRIu64, reply.code, r->new.code);
        return false;
    }
    return true;
}

// Every cut of set-up on the medium in `before`; or every cut at the time when it is answered.
static bool cut_set_up(row *r) {
    uint8_t medium[LARGEST];
    step steps[STEPS];
    unsigned count;
    device d;
    if (!plan_set_up(r, medium, steps, &count)) {
        return false;
    }
    make_still(&d, r->before, r->length);
    if (r->at_rest) {
        settle(&d, steps, count);
        count = 0;
    }
    return each_cut(&d, steps, count, judge, r);
}

static bool end_row(const row *r, bool well) {
    if (well) {
        say(r->text, "%" PRIu64 " old, %" PRIu64 " new, %" PRIu64 " damaged, %" PRIu64 " mixtures", r->counts[OLD],
            r->counts[NEW], r->counts[DAMAGED], r->counts[MIXTURE]);
    }
    return well;
}

// ---- what is expected

static bool first_selected(const uint8_t *medium) {
    return number_at(medium, SELECTOR_AT) == FIRST;
}

static bool has_header(const uint8_t *medium, const uint8_t *header) {
    return memcmp(medium + FIRST_HEADER_AT, header, HEADER_LENGTH) == 0;
}

static bool has_fresh_header(const uint8_t *medium, size_t length) {
    uint8_t header[HEADER_LENGTH];
    put_header(header, 0, 0, length - RING_AT);
    return has_header(medium, header);
}

static found old_or_new(const uint8_t *before, const uint8_t *left, size_t length) {
    (void)before, (void)length;
    return first_selected(left) ? NEW : OLD;
}

static found old_damaged_or_new(const uint8_t *before, const uint8_t *left, size_t length) {
    return has_header(left, before + FIRST_HEADER_AT) ? OLD : has_fresh_header(left, length) ? NEW : DAMAGED;
}

static found damaged_or_new(const uint8_t *before, const uint8_t *left, size_t length) {
    (void)before, (void)length;
    return first_selected(left) ? NEW : DAMAGED;
}

static found damaged_new_or_mixture(const uint8_t *before, const uint8_t *left, size_t length) {
    (void)before;
    const uint8_t *header = left + FIRST_HEADER_AT;
    bool whole = number_at(header, 0) == crc64(header + HEAD_IN, HEADER_LENGTH - HEAD_IN);
    return has_fresh_header(left, length) ? NEW : whole ? MIXTURE : DAMAGED;
}

static found only_new(const uint8_t *before, const uint8_t *left, size_t length) {
    (void)before, (void)left, (void)length;
    return NEW;
}

// ---- the rows

static bool live_second, spoil_selector;

// The empty log at position 0 is left out: there old and new are the same.
static bool on_shape(void *context, uint64_t ring, beginning start) {
    row *r = context;
    if (start.second != live_second || start.tail == 0) {
        return true;
    }
    r->length = RING_AT + ring;
    forge(r->before, ring, start.head, start.tail, start.second);
    r->before[SELECTOR_AT] ^= spoil_selector;
    return cut_set_up(r);
}

static bool on_shapes(row *r, bool second, bool spoil) {
    live_second = second;
    spoil_selector = spoil;
    for (uint64_t ring = 1; ring <= 12; ring++) {
        if (!each_shape(ring, on_shape, r)) {
            return false;
        }
    }
    return true;
}

bool second_header_live(char text[TEXT]) {
    row r = {.text = text, .expected = old_or_new};
    return end_row(&r, on_shapes(&r, true, false));
}

bool first_header_live(char text[TEXT]) {
    row r = {.text = text, .expected = old_damaged_or_new};
    return end_row(&r, on_shapes(&r, false, false));
}

bool neither_selector(char text[TEXT]) {
    row r = {.text = text, .expected = damaged_or_new};
    for (uint64_t ring = 1; ring <= 12; ring++) {
        r.length = RING_AT + ring;
        put_background(r.before, r.length);
        if (!cut_set_up(&r)) {
            return end_row(&r, false);
        }
    }
    return end_row(&r, on_shapes(&r, true, true) && on_shapes(&r, false, true));
}

// A medium whose selector names the first header: that of a log, with these positions in it.
static bool on_damaged(row *r, uint64_t ring, uint64_t tail, uint64_t wrong_head, uint64_t wrong_tail) {
    r->length = RING_AT + ring;
    put_background(r->before, r->length);
    put_log(r->before, ring, 0, tail, false);
    put_number(r->before, FIRST_HEADER_AT + HEAD_IN, wrong_head);
    put_number(r->before, FIRST_HEADER_AT + TAIL_IN, wrong_tail);
    return cut_set_up(r);
}

bool first_header_damaged(char text[TEXT]) {
    row r = {.text = text, .expected = damaged_new_or_mixture};
    for (uint64_t ring = 1; ring <= 4; ring++) {
        for (uint64_t tail = 0; tail < ring; tail++) {
            if (!on_damaged(&r, ring, tail, 256, tail) || !on_damaged(&r, ring, tail, 1ull << 40, tail) ||
                !on_damaged(&r, ring, tail, 0, tail + 256) || !on_damaged(&r, ring, tail, 0, UINT64_MAX)) {
                return end_row(&r, false);
            }
        }
    }
    return end_row(&r, true);
}

// ---- the time after set-up, and set-up without one of its flushes

bool set_up_is_kept(char text[TEXT]) {
    row r = {.text = text, .expected = only_new, .at_rest = true};
    return end_row(&r, on_shapes(&r, true, false));
}

// Passes when set-up without that flush fails.
static bool caught_without(char text[TEXT], unsigned flush, bool passes(char text[TEXT])) {
    static char found[TEXT];
    found[0] = 0;
    flush_left_out = flush;
    bool missed = passes(found);
    flush_left_out = 0;
    say(text, "%s%s", missed ? "not caught: " : "caught: ", found);
    return !missed;
}

bool caught_without_first_flush(char text[TEXT]) {
    return caught_without(text, 1, second_header_live);
}

bool caught_without_last_flush(char text[TEXT]) {
    return caught_without(text, 2, set_up_is_kept);
}
