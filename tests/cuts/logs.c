#include "logs.h"

#include "format.h"

#include <stdio.h>
#include <stdlib.h>
#include <string.h>

const log_under_test archive = THE_ARCHIVE;

// ---- plans, line by line: six numbers each, of which the first is the kind

enum { LINE = 6, FLUSH_LINE = 0, BYTES_LINE = 1, NUMBER_LINE = 2, NUMBERS_LINE = 3 };

static bool is_selector(const uint64_t *line) {
    return line[0] == NUMBER_LINE && line[1] == SELECTOR_AT;
}

// The line of this kind; a plan without one is not a plan that this mutant can be made of.
static unsigned line_of(const uint64_t *plan, uint64_t steps, uint64_t kind) {
    for (unsigned i = 0; i < steps; i++) {
        if (plan[LINE * i] == kind && (kind != NUMBER_LINE || is_selector(plan + LINE * i))) {
            return i;
        }
    }
    fprintf(stderr, "a plan has no line of kind %llu\n", (unsigned long long)kind);
    exit(2);
}

static bool flush_at(const uint64_t *plan, uint64_t steps, unsigned i) {
    return i < steps && plan[LINE * i] == FLUSH_LINE;
}

// Moves the lines from `from` to `to`, without `to`, before line `where`.
static void move_lines(uint64_t *plan, unsigned from, unsigned to, unsigned where) {
    uint64_t moved[BBL_PLAN_WORDS];
    memcpy(moved, plan + LINE * from, (to - from) * LINE * 8);
    memmove(plan + LINE * (where + to - from), plan + LINE * where, (from - where) * LINE * 8);
    memcpy(plan + LINE * where, moved, (to - from) * LINE * 8);
}

static void drop_lines(uint64_t *plan, uint64_t *steps, unsigned from, unsigned to) {
    memmove(plan + LINE * from, plan + LINE * to, (*steps - to) * LINE * 8);
    *steps -= to - from;
}

static void put_line(uint64_t *plan, unsigned i, uint64_t kind, uint64_t at, uint64_t a, uint64_t b) {
    const uint64_t line[LINE] = {kind, at, a, b, 0, 0};
    memcpy(plan + LINE * i, line, sizeof line);
}

// The line that writes a header, with these numbers.
static void put_header_line(uint64_t *plan, unsigned i, bool second, uint64_t head, uint64_t tail, uint64_t size) {
    uint8_t header[HEADER_LENGTH];
    put_header(header, head, tail, size);
    uint64_t line[LINE] = {NUMBERS_LINE, header_at(second)};
    for (unsigned k = 0; k < 4; k++) {
        line[2 + k] = number_at(header, 8 * k);
    }
    memcpy(plan + LINE * i, line, sizeof line);
}

// A plan with its header written whole, by one line, and not by the pieces that change: what the mutants are made of.
static void whole_header(bbl_reply *reply, uint64_t *plan) {
    for (unsigned i = (unsigned)reply->steps; i-- > 0;) {
        if (plan[LINE * i] == NUMBER_LINE && !is_selector(plan + LINE * i)) {
            drop_lines(plan, &reply->steps, i, i + 1);
        }
    }
    unsigned i = 0;
    while (!flush_at(plan, reply->steps, i)) {
        i++;
    }
    memmove(plan + LINE * (i + 1), plan + LINE * i, (reply->steps - i) * LINE * 8);
    reply->steps++;
    put_header_line(plan, i, reply->handle.live, reply->handle.head, reply->handle.tail, reply->handle.size);
}

// ---- mutants that spoil a right plan

typedef void spoil(bbl_handle before, bbl_reply *reply, uint64_t *plan);

#define SPOILED(NAME)                                                                                                   \
    static bbl_reply NAME##_append(const uint8_t *medium, size_t length, bbl_handle handle, uint64_t count,            \
                                   uint64_t *plan, size_t words) {                                                    \
        bbl_reply reply = bbl_plan_append(medium, length, handle, count, plan, words);                                  \
        if (reply.code == BBL_OK) {                                                                                     \
            whole_header(&reply, plan);                                                                                \
            NAME(handle, &reply, plan);                                                                                \
        }                                                                                                               \
        return reply;                                                                                                   \
    }                                                                                                                   \
    static bbl_reply NAME##_advance(const uint8_t *medium, size_t length, bbl_handle handle, uint64_t position,        \
                                    uint64_t *plan, size_t words) {                                                   \
        bbl_reply reply = bbl_plan_advance(medium, length, handle, position, plan, words);                              \
        if (reply.code == BBL_OK) {                                                                                     \
            whole_header(&reply, plan);                                                                                \
            NAME(handle, &reply, plan);                                                                                \
        }                                                                                                               \
        return reply;                                                                                                   \
    }

// Switches the selector before the header is whole.
static void selector_first(bbl_handle before, bbl_reply *reply, uint64_t *plan) {
    (void)before;
    unsigned i = line_of(plan, reply->steps, NUMBER_LINE);
    move_lines(plan, i, i + 1 + flush_at(plan, reply->steps, i + 1), 0);
}
SPOILED(selector_first)

// Writes the live header in place.
static void live_header_in_place(bbl_handle before, bbl_reply *reply, uint64_t *plan) {
    plan[LINE * line_of(plan, reply->steps, NUMBERS_LINE) + 1] = header_at(before.live);
    unsigned i = line_of(plan, reply->steps, NUMBER_LINE);
    drop_lines(plan, &reply->steps, i, i + 1 + flush_at(plan, reply->steps, i + 1));
    reply->handle.live = before.live;
}
SPOILED(live_header_in_place)

// Keeps a running position modulo size.
static void position_modulo_size(bbl_handle before, bbl_reply *reply, uint64_t *plan) {
    (void)before;
    bbl_handle *h = &reply->handle;
    h->tail %= h->size;
    put_header_line(plan, line_of(plan, reply->steps, NUMBERS_LINE), h->live, h->head, h->tail, h->size);
}
SPOILED(position_modulo_size)

// Writes the appended bytes when the selector is switched already.
static void bytes_last(bbl_handle before, bbl_reply *reply, uint64_t *plan) {
    (void)before;
    unsigned i = line_of(plan, reply->steps, NUMBERS_LINE);
    move_lines(plan, i, (unsigned)reply->steps, 0);
}
SPOILED(bytes_last)

// Never flushes.
static void no_flush(bbl_handle before, bbl_reply *reply, uint64_t *plan) {
    (void)before;
    for (unsigned i = (unsigned)reply->steps; i-- > 0;) {
        if (flush_at(plan, reply->steps, i)) {
            drop_lines(plan, &reply->steps, i, i + 1);
        }
    }
}
SPOILED(no_flush)

// Does not flush before the selector.
static void no_flush_before_selector(bbl_handle before, bbl_reply *reply, uint64_t *plan) {
    (void)before;
    unsigned i = line_of(plan, reply->steps, NUMBER_LINE);
    if (flush_at(plan, reply->steps, i - 1)) {
        drop_lines(plan, &reply->steps, i - 1, i);
    }
}
SPOILED(no_flush_before_selector)

// Does not flush after the selector.
static void no_flush_after_selector(bbl_handle before, bbl_reply *reply, uint64_t *plan) {
    (void)before;
    unsigned i = line_of(plan, reply->steps, NUMBER_LINE);
    if (flush_at(plan, reply->steps, i + 1)) {
        drop_lines(plan, &reply->steps, i + 1, i + 2);
    }
}
SPOILED(no_flush_after_selector)

// ---- appends up to size bytes, so that full and empty look alike

static bbl_reply all_size_append(const uint8_t *medium, size_t length, bbl_handle handle, uint64_t count,
                                 uint64_t *plan, size_t words) {
    bbl_reply reply = bbl_plan_append(medium, length, handle, count, plan, words);
    if (reply.code != BBL_NO_ROOM || handle.tail + count - handle.head != handle.size || handle.tail + count < count) {
        return reply;
    }
    uint64_t to_end = handle.size - handle.tail % handle.size, first = count < to_end ? count : to_end;
    bbl_handle next = {!handle.live, handle.head, handle.tail + count, handle.size};
    put_line(plan, 0, BYTES_LINE, place(handle.size, handle.tail), 0, first);
    put_line(plan, 1, FLUSH_LINE, 0, 0, 0);
    put_line(plan, 2, BYTES_LINE, RING_AT, first, count);
    put_line(plan, 3, FLUSH_LINE, 0, 0, 0);
    put_header_line(plan, 4, next.live, next.head, next.tail, next.size);
    put_line(plan, 5, FLUSH_LINE, 0, 0, 0);
    put_line(plan, 6, NUMBER_LINE, SELECTOR_AT, selector_of(next.live), 0);
    put_line(plan, 7, FLUSH_LINE, 0, 0, 0);
    return (bbl_reply){BBL_OK, handle.tail, 0, 8, next};
}

static bbl_reply all_size_open(const uint8_t *medium, size_t length) {
    bbl_reply reply = bbl_open(medium, length);
    if (reply.code != BBL_TOO_FULL || reply.other - reply.number != reply.handle.size) {
        return reply;
    }
    bool second = number_at(medium, SELECTOR_AT) == SECOND;
    return (bbl_reply){BBL_OK, 0, 0, 0, {second, reply.number, reply.other, reply.handle.size}};
}

static bbl_reply all_size_read(const uint8_t *medium, size_t length, bbl_handle handle, uint64_t position, uint8_t *out,
                               size_t count) {
    if (handle.head % handle.size == handle.tail % handle.size) {
        return (bbl_reply){.code = BBL_OK};
    }
    return bbl_read(medium, length, handle, position, out, count);
}

static bbl_reply all_size_ask(const uint8_t *medium, size_t length, bbl_handle handle) {
    (void)medium, (void)length;
    return (bbl_reply){BBL_OK, handle.size - 1, 0, 0, {0, handle.head, handle.tail, 0}};
}

// ---- after reopening reports a tail past what was committed: that of the other header, where it is whole. A single cut does
// not show it, since the bytes are there; a cut of the next operation, which writes that header, does.

static bbl_reply tail_past_open(const uint8_t *medium, size_t length) {
    bbl_reply reply = bbl_open(medium, length);
    if (reply.code != BBL_OK) {
        return reply;
    }
    const uint8_t *other = medium + header_at(!reply.handle.live);
    uint64_t tail = number_at(other, TAIL_IN);
    bool whole = number_at(other, 0) == crc64(other + HEAD_IN, HEADER_LENGTH - HEAD_IN);
    if (whole && tail > reply.handle.tail && tail - reply.handle.head < reply.handle.size) {
        reply.handle.tail = tail;
    }
    return reply;
}

// ---- writes one byte more than a step says

static bbl_stepped beside_step(uint8_t *medium, size_t length, const uint64_t *plan, size_t words, const uint8_t *bytes,
                               size_t count, uint64_t i) {
    bbl_stepped done = bbl_step(medium, length, plan, words, bytes, count, i);
    if (done.code == BBL_STEP_PUT && done.at + done.length < length) {
        medium[length - 1] ^= 1;
    }
    return done;
}

// ---- reads the last byte one off where the read goes on at the ring's start

static bbl_reply off_read(const uint8_t *medium, size_t length, bbl_handle handle, uint64_t position, uint8_t *out,
                          size_t count) {
    bbl_reply reply = bbl_read(medium, length, handle, position, out, count);
    if (reply.code == BBL_OK && count > 0 && position % handle.size + count > handle.size) {
        out[count - 1] = medium[place(handle.size, position + count)];
    }
    return reply;
}

// ---- names the tail and 1 where an advance is refused

static bbl_reply other_number_advance(const uint8_t *medium, size_t length, bbl_handle handle, uint64_t position,
                                      uint64_t *plan, size_t words) {
    bbl_reply reply = bbl_plan_advance(medium, length, handle, position, plan, words);
    reply.number += reply.code == BBL_BEYOND_TAIL;
    return reply;
}

#define OF_PLAN(NAME) \
    { #NAME, bbl_open, bbl_plan_setup, NAME##_append, NAME##_advance, bbl_step, bbl_read, bbl_ask }

const log_under_test mutants[] = {
    OF_PLAN(selector_first),
    OF_PLAN(live_header_in_place),
    {"append_of_all_size", all_size_open, bbl_plan_setup, all_size_append, bbl_plan_advance, bbl_step, all_size_read,
     all_size_ask},
    {"tail_past_committed", tail_past_open, bbl_plan_setup, bbl_plan_append, bbl_plan_advance, bbl_step, bbl_read,
     bbl_ask},
    OF_PLAN(position_modulo_size),
    OF_PLAN(bytes_last),
    OF_PLAN(no_flush),
    OF_PLAN(no_flush_before_selector),
    OF_PLAN(no_flush_after_selector),
    {"byte_beside_step", bbl_open, bbl_plan_setup, bbl_plan_append, bbl_plan_advance, beside_step, bbl_read, bbl_ask},
    {"read_off_at_wrap", bbl_open, bbl_plan_setup, bbl_plan_append, bbl_plan_advance, bbl_step, off_read, bbl_ask},
    {"other_number", bbl_open, bbl_plan_setup, bbl_plan_append, other_number_advance, bbl_step, bbl_read, bbl_ask},
    {0},
};
