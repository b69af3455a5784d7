// input [--long]: arbitrary input and damage. input [--mutant NAME] --case LIMIT:NUMBER: one case of arbitrary input.
// input --open LENGTH:DIGITS: one medium, by its length and the digits of its first 72 bytes.
#include "damage.h"
#include "format.h"
#include "fuzz.h"
#include "report.h"

#include <inttypes.h>
#include <stdio.h>
#include <stdlib.h>
#include <string.h>

static const log_under_test archive = THE_ARCHIVE;

static uint64_t cases = 150000;
static const log_under_test *mutant;
static size_t limit;
static uint64_t number;

static bool failed(fuzz *f, uint64_t i, char text[TEXT]) {
    i = fuzz_smaller(f, i);
    say(text, "%s\n      repeat: tests/input/run %s%s%s--case %zu:%" PRIu64, f->wrong, mutant ? "--mutant " : "",
        mutant ? mutant->name : "", mutant ? " " : "", f->limit, i);
    return false;
}

static bool any_input(char text[TEXT]) {
    fuzz f = fuzz_of(&archive);
    uint64_t i = fuzz_cases(&f, 0, cases);
    if (i < cases) {
        return failed(&f, i, text);
    }
    uint64_t calls = 0;
    for (unsigned function = 0; function < FUNCTIONS; function++) {
        for (unsigned code = 0; code < CODES; code++) {
            calls += f.seen[function][code];
        }
    }
    say(text, "%" PRIu64 " calls on %" PRIu64 " inputs; every function answered each of its codes", calls, cases);
    return all_codes_seen(&f, text);
}

static bool one_case(char text[TEXT]) {
    fuzz f = fuzz_of(mutant ? mutant : &archive);
    f.limit = limit;
    if (fuzz_cases(&f, number, number + 1) == number) {
        say(text, "%s", f.wrong);
        return false;
    }
    say(text, "nothing wrong");
    return true;
}

// ---- mutants: the archive with one fault each, which must be caught

// Reads a byte behind the medium.
static bbl_reply reads_behind(const uint8_t *medium, size_t length) {
    (void)((const volatile uint8_t *)medium)[length];
    return bbl_open(medium, length);
}

// Writes a byte behind the medium.
static bbl_stepped writes_behind(uint8_t *medium, size_t length, const uint64_t *plan, size_t words, const uint8_t *bytes,
                                 size_t count, uint64_t i) {
    bbl_stepped done = bbl_step(medium, length, plan, words, bytes, count, i);
    if (done.code == BBL_STEP_PUT && done.at + done.length == length) {
        ((volatile uint8_t *)medium)[length] = 1;
    }
    return done;
}

// Carries out a step whose place and length together pass 2^64 - 1.
static bbl_stepped sum_wraps(uint8_t *medium, size_t length, const uint64_t *plan, size_t words, const uint8_t *bytes,
                             size_t count, uint64_t i) {
    bbl_stepped done = bbl_step(medium, length, plan, words, bytes, count, i);
    if (done.code == BBL_STEP_REFUSED && i < words / 6 && plan[6 * i] == 2 && plan[6 * i + 1] + 8 <= length) {
        done = (bbl_stepped){BBL_STEP_PUT, plan[6 * i + 1], 8};
    }
    return done;
}

// Opens a log that is too full.
static bbl_reply opens_full(const uint8_t *medium, size_t length) {
    bbl_reply reply = bbl_open(medium, length);
    if (reply.code == BBL_TOO_FULL && reply.handle.size == length - RING_AT) {
        reply.code = BBL_OK;
    }
    return reply;
}

// Fills the output although the read is refused.
static bbl_reply fills_refused(const uint8_t *medium, size_t length, bbl_handle handle, uint64_t position, uint8_t *out,
                               size_t count) {
    bbl_reply reply = bbl_read(medium, length, handle, position, out, count);
    if (reply.code == BBL_BEYOND_TAIL && count > 0) {
        out[0] ^= 1;
    }
    return reply;
}

// Names the room by positions.
static bbl_reply room_by_positions(const uint8_t *medium, size_t length, bbl_handle handle, uint64_t count, uint64_t *plan,
                                   size_t words) {
    bbl_reply reply = bbl_plan_append(medium, length, handle, count, plan, words);
    if (reply.code == BBL_NO_ROOM && count > UINT64_MAX - handle.tail) {
        reply.number = UINT64_MAX - handle.tail;
    }
    return reply;
}

// Takes any number but 1 for the first header.
static bbl_reply any_live(const uint8_t *medium, size_t length, bbl_handle handle) {
    handle.live = handle.live == 1;
    return bbl_ask(medium, length, handle);
}

#define WITH(NAME, PLACE, FUNCTION)                                                                                         \
    {                                                                                                                       \
        .name = NAME, .open = bbl_open, .plan_setup = bbl_plan_setup, .plan_append = bbl_plan_append,                       \
        .plan_advance = bbl_plan_advance, .step = bbl_step, .read = bbl_read, .ask = bbl_ask, .PLACE = FUNCTION             \
    }

#pragma GCC diagnostic ignored "-Woverride-init"
static const log_under_test mutants[] = {
    WITH("reads_behind", open, reads_behind),     WITH("writes_behind", step, writes_behind),
    WITH("sum_wraps", step, sum_wraps),           WITH("opens_full", open, opens_full),
    WITH("fills_refused", read, fills_refused),   WITH("room_by_positions", plan_append, room_by_positions),
    WITH("any_live", ask, any_live),              {0},
};

static bool caught(char text[TEXT]) {
    fuzz f = fuzz_of(mutant);
    uint64_t i = fuzz_cases(&f, 0, 200000);
    if (i == 200000) {
        say(text, "not caught");
        return false;
    }
    say(text, "caught: ");
    failed(&f, i, text);
    return true;
}

static void all(void) {
    char name[128];
    part("arbitrary input", any_input);
    for (mutant = mutants; mutant->name != NULL; mutant++) {
        snprintf(name, sizeof name, "mutant %s", mutant->name);
        part(name, caught);
    }
    part("damage: runs of up to 64 bits of the live header", bursts);
    part("damage: flips of up to 3 bits of the live header", flips);
    part("damage: flips of 4 to 7 bits of the live header", more_flips);
    part("damage: flips of up to 24 bits of the selector", selector_flips);
    part("damage over the border of checksum and content", over_the_border);
}

static char digits[256];

static bool one_medium(char text[TEXT]) {
    return open_medium(limit, digits, text);
}

static bool find_mutant(const char *name) {
    for (mutant = mutants; mutant->name != NULL; mutant++) {
        if (strcmp(mutant->name, name) == 0) {
            return true;
        }
    }
    return false;
}

int main(int count, char **words) {
    if (count == 5 && strcmp(words[1], "--mutant") == 0 && find_mutant(words[2])) {
        count -= 2;
        words += 2;
    }
    bool is_long = count == 2 && strcmp(words[1], "--long") == 0;
    if (is_long) {
        cases = 12500000;
        damage_extent = 20;
    }
    if (count == 1 || is_long) {
        all();
    } else if (count == 3 && strcmp(words[1], "--case") == 0 && sscanf(words[2], "%zu:%" SCNu64, &limit, &number) == 2) {
        part(words[2], one_case);
    } else if (count == 3 && strcmp(words[1], "--open") == 0 && sscanf(words[2], "%zu:%255s", &limit, digits) == 2) {
        part("one medium", one_medium);
    } else {
        fprintf(stderr, "usage: input [--long] | [--mutant NAME] --case LIMIT:NUMBER | --open LENGTH:DIGITS\n");
        return 2;
    }
    return report_end();
}
