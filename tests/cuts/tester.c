#include "tester.h"

#include "format.h"

#include <inttypes.h>
#include <stdarg.h>
#include <stdio.h>
#include <string.h>

// The log as its users think of it.
typedef struct {
    uint64_t head, capacity;
    unsigned count;
    uint8_t bytes[2 * LARGEST_RING];
} view;

// A log in the course of a case.
typedef struct {
    size_t length;
    uint8_t medium[LARGEST];
    bbl_handle handle;
    // what the log should be
    view view;
    // what of the medium has arrived for good, and what has not
    device device;
} state;

typedef struct {
    unsigned count;
    step steps[STEPS];
} carried;

tester tester_of(const log_under_test *log) {
    return (tester){.log = log};
}

__attribute__((format(printf, 2, 3))) static bool wrong(tester *t, const char *format, ...) {
    size_t used = strlen(t->what);
    va_list values;
    va_start(values, format);
    vsnprintf(t->what + used, WHAT - used, format, values);
    va_end(values);
    return false;
}

static uint64_t tail_of(const view *v) {
    return v->head + v->count;
}

static bool same_view(const view *a, const view *b) {
    return a->head == b->head && a->capacity == b->capacity && a->count == b->count &&
           memcmp(a->bytes, b->bytes, a->count) == 0;
}

// ---- what a medium shows

// What a handle shows of a medium; answers the code of a refusal, or 0. What asking answers must be whole.
static uint64_t shown(tester *t, const uint8_t *medium, size_t length, bbl_handle handle, view *v) {
    bbl_reply numbers = t->log->ask(medium, length, handle);
    if (numbers.code != BBL_OK) {
        return numbers.code;
    }
    v->head = numbers.handle.head;
    v->capacity = numbers.number;
    uint64_t count = numbers.handle.tail - numbers.handle.head;
    if (count > numbers.number + 1 || count >= sizeof v->bytes) {
        return BBL_TOO_FULL;
    }
    v->count = (unsigned)count;
    memset(v->bytes, 0xee, count);
    return t->log->read(medium, length, handle, v->head, v->bytes, count).code;
}

static uint64_t opened(tester *t, const uint8_t *medium, size_t length, bbl_handle *handle, view *v) {
    bbl_reply reply = t->log->open(medium, length);
    *handle = reply.handle;
    return reply.code != BBL_OK ? reply.code : shown(t, medium, length, reply.handle, v);
}

static bool say_view(tester *t, uint64_t code, const view *v) {
    if (code != BBL_OK) {
        return wrong(t, "it opens with code %" PRIu64, code);
    }
    wrong(t, "it opens as head %" PRIu64 ", tail %" PRIu64 ", capacity %" PRIu64 ", bytes", v->head, tail_of(v),
          v->capacity);
    for (unsigned i = 0; i < v->count; i++) {
        wrong(t, " %02x", v->bytes[i]);
    }
    return false;
}

// ---- actions

static bool carry_out(tester *t, state *s, bbl_reply reply, const uint64_t *plan, const uint8_t *bytes, size_t count,
                      carried *c) {
    for (uint64_t i = 0; i < reply.steps; i++) {
        uint8_t expected[LARGEST];
        memcpy(expected, s->medium, s->length);
        // the header's way and the archive's in turn
        bool by_header = t->log->make_step != NULL && t->operations % 2 == 0;
        bbl_stepped done = (by_header ? t->log->make_step : t->log->step)(s->medium, s->length, plan, BBL_PLAN_WORDS, bytes, count, i);
        if (done.code > BBL_STEP_FLUSH || i >= STEPS) {
            return wrong(t, "step %" PRIu64 " answers code %" PRIu64, i, done.code);
        }
        step *next = &c->steps[c->count++];
        next->flush = done.code == BBL_STEP_FLUSH;
        next->at = done.at;
        next->length = done.length;
        if (next->flush) {
            continue;
        }
        if (done.length > s->length || done.at > s->length - done.length) {
            return wrong(t, "step %" PRIu64 " puts %" PRIu64 " bytes at %" PRIu64, i, done.length, done.at);
        }
        memcpy(next->bytes, s->medium + done.at, done.length);
        put_step(expected, next);
        if (memcmp(expected, s->medium, s->length) != 0) {
            size_t at = 0;
            while (expected[at] == s->medium[at]) {
                at++;
            }
            return wrong(t, "step %" PRIu64 " also changes the byte at %zu", i, at);
        }
    }
    return true;
}

// The answer must be this one.
static bool answers(tester *t, bbl_reply reply, uint64_t code, uint64_t number) {
    bool as_it_should = reply.code == code && reply.number == number && (code == BBL_OK || reply.steps == 0);
    return as_it_should || wrong(t, "it answers code %" PRIu64 ", number %" PRIu64 ", %" PRIu64
                                    " steps; it should answer code %" PRIu64 ", number %" PRIu64,
                                 reply.code, reply.number, reply.steps, code, number);
}

// The log that the state should have goes by what was answered, so that cuts of a wrongly accepted append are judged as well.
static bool append(tester *t, state *s, uint64_t count, carried *c, bool *right) {
    uint64_t plan[BBL_PLAN_WORDS] = {0};
    uint8_t bytes[LARGEST_RING + 2];
    view *v = &s->view;
    uint64_t tail = tail_of(v), by_ring = v->capacity - v->count, by_positions = UINT64_MAX - tail;
    uint64_t room = by_ring < by_positions ? by_ring : by_positions;
    for (uint64_t i = 0; i < count; i++) {
        bytes[i] = byte_of(v->capacity + 1, tail + i);
    }
    bbl_reply reply = t->log->plan_append(s->medium, s->length, s->handle, count, plan, BBL_PLAN_WORDS);
    if (!carry_out(t, s, reply, plan, bytes, count, c)) {
        return false;
    }
    *right = count <= room ? answers(t, reply, BBL_OK, tail) : answers(t, reply, BBL_NO_ROOM, room);
    if (reply.code == BBL_OK) {
        s->handle = reply.handle;
        memcpy(v->bytes + v->count, bytes, count);
        v->count += (unsigned)count;
    }
    return true;
}

static bool advance(tester *t, state *s, uint64_t to, carried *c, bool *right) {
    uint64_t plan[BBL_PLAN_WORDS] = {0};
    view *v = &s->view;
    bbl_reply reply = t->log->plan_advance(s->medium, s->length, s->handle, to, plan, BBL_PLAN_WORDS);
    if (!carry_out(t, s, reply, plan, (const uint8_t *)"", 0, c)) {
        return false;
    }
    bool before = to < v->head, beyond = to > tail_of(v);
    *right = before   ? answers(t, reply, BBL_BEFORE_HEAD, v->head)
             : beyond ? answers(t, reply, BBL_BEYOND_TAIL, tail_of(v))
                      : answers(t, reply, BBL_OK, 0);
    if (reply.code == BBL_OK && !before && !beyond) {
        unsigned gone = (unsigned)(to - v->head);
        s->handle = reply.handle;
        memmove(v->bytes, v->bytes + gone, v->count - gone);
        v->head = to;
        v->count -= gone;
    }
    return true;
}

static bool read_bytes(tester *t, const state *s, uint64_t position, uint64_t count) {
    uint8_t out[2 * LARGEST_RING];
    const view *v = &s->view;
    memset(out, 0xee, sizeof out);
    bbl_reply reply = t->log->read(s->medium, s->length, s->handle, position, out, count);
    if (position < v->head) {
        return answers(t, reply, BBL_BEFORE_HEAD, v->head);
    }
    if (position > tail_of(v) || count > tail_of(v) - position) {
        return answers(t, reply, BBL_BEYOND_TAIL, tail_of(v));
    }
    if (!answers(t, reply, BBL_OK, 0)) {
        return false;
    }
    return memcmp(out, v->bytes + (position - v->head), count) == 0 || wrong(t, "it reads other bytes");
}

static bool reopen(tester *t, state *s) {
    bbl_reply reply = t->log->open(s->medium, s->length);
    s->handle = reply.handle;
    return reply.code == BBL_OK || wrong(t, "reopening answers code %" PRIu64, reply.code);
}

// Carries an action out. Answers false where it makes no sense to go on; `right` says whether the answer is right.
static bool perform(tester *t, state *s, action a, carried *c, bool *right) {
    c->count = 0;
    switch (a.kind) {
    case APPEND:
        return append(t, s, a.a, c, right);
    case ADVANCE_BY:
        return advance(t, s, s->view.head + a.a, c, right);
    case ADVANCE_TO_TAIL:
        return advance(t, s, tail_of(&s->view), c, right);
    case ADVANCE_TO:
        return advance(t, s, a.a, c, right);
    case READ_ALL:
        *right = read_bytes(t, s, s->view.head, s->view.count);
        return true;
    case READ:
        *right = read_bytes(t, s, a.a, a.b);
        return true;
    case REOPEN:
        *right = reopen(t, s);
        return *right;
    }
    return false;
}

// ---- cuts

typedef struct {
    tester *t;
    const view *before, *after;
    size_t length;
} allowed;

static bool before_or_after(void *context, const uint8_t *left, const cut *c) {
    const allowed *a = context;
    bbl_handle handle;
    view v;
    a->t->cuts++;
    uint64_t code = opened(a->t, left, a->length, &handle, &v);
    if (code == BBL_OK && (same_view(&v, a->before) || same_view(&v, a->after))) {
        return true;
    }
    a->t->now.operations[a->t->now.count - 1].is_cut = true;
    a->t->now.operations[a->t->now.count - 1].cut = *c;
    return say_view(a->t, code, &v);
}

// The log through the handle, and the log through opening again.
static bool shows_its_log(tester *t, const state *s) {
    bbl_handle handle;
    view v;
    uint64_t code = shown(t, s->medium, s->length, s->handle, &v);
    if (code == BBL_OK && same_view(&v, &s->view)) {
        code = opened(t, s->medium, s->length, &handle, &v);
    }
    return (code == BBL_OK && same_view(&v, &s->view)) || (wrong(t, "with no cut "), say_view(t, code, &v));
}

// Only what there is of pending writes.
static void copy_state(state *to, const state *from) {
    memcpy(to, from, offsetof(state, device.pending));
    memcpy(to->device.pending, from->device.pending, from->device.count * sizeof *from->device.pending);
}

// Carries out an action, the last of the case so far. Where the case is to end with it, tries all cuts of it, and then its
// answer against what it should be.
static bool operate(tester *t, const state *s, action a, bool end, state *next) {
    carried c;
    bool right = true;
    copy_state(next, s);
    if (!perform(t, next, a, &c, &right)) {
        return false;
    }
    if (end) {
        t->operations++;
        allowed both = {t, &s->view, &next->view, s->length};
        char answer[WHAT];
        memcpy(answer, t->what, WHAT);
        t->what[0] = 0;
        if (!each_cut(&s->device, c.steps, c.count, before_or_after, &both)) {
            return false;
        }
        memcpy(t->what, answer, WHAT);
        if (!right || !shows_its_log(t, next)) {
            return false;
        }
    } else if (!right) {
        return false;
    }
    settle(&next->device, c.steps, c.count);
    return true;
}

// ---- walks

static operation *push(tester *t, action a) {
    operation *o = &t->now.operations[t->now.count++];
    o->action = a;
    o->is_cut = false;
    return o;
}

// Every sequence of exactly `length` more of these actions; shorter ones are tried on their own.
static bool each_continuation(tester *t, const state *s, const action *actions, unsigned count, unsigned length) {
    for (unsigned i = 0; i < count; i++) {
        state next;
        push(t, actions[i]);
        if (!operate(t, s, actions[i], length == 1, &next)) {
            return false;
        }
        if (length > 1 && !each_continuation(t, &next, actions, count, length - 1)) {
            return false;
        }
        t->now.count--;
    }
    return true;
}

static bool begin(tester *t, uint64_t ring, beginning start, state *s) {
    t->now = (test_case){.ring = ring, .start = start};
    t->what[0] = 0;
    s->length = RING_AT + ring;
    s->view = (view){.head = start.head, .capacity = ring - 1, .count = (unsigned)(start.tail - start.head)};
    if (start.set_up) {
        uint64_t plan[BBL_PLAN_WORDS] = {0};
        carried c = {0};
        put_background(s->medium, s->length);
        bbl_reply reply = t->log->plan_setup(s->medium, s->length, plan, BBL_PLAN_WORDS);
        if (!answers(t, reply, BBL_OK, ring - 1) || !carry_out(t, s, reply, plan, (const uint8_t *)"", 0, &c)) {
            return false;
        }
    } else {
        forge(s->medium, ring, start.head, start.tail, start.second);
        for (unsigned i = 0; i < s->view.count; i++) {
            s->view.bytes[i] = byte_of(ring, start.head + i);
        }
    }
    make_still(&s->device, s->medium, s->length);
    return reopen(t, s) && shows_its_log(t, s);
}

bool try_sequences(tester *t, const uint64_t *rings, unsigned count, unsigned longest) {
    for (unsigned length = 1; length <= longest; length++) {
        for (unsigned i = 0; i < count; i++) {
            action actions[ACTIONS];
            unsigned kinds = sequence_actions(rings[i], actions);
            state s;
            if (!begin(t, rings[i], (beginning){.set_up = true}, &s) ||
                !each_continuation(t, &s, actions, kinds, length)) {
                return false;
            }
        }
    }
    return true;
}

static bool one_change(void *context, uint64_t ring, beginning start) {
    tester *t = context;
    action actions[ACTIONS];
    unsigned count = shape_changes(ring, start.head, start.tail, actions);
    state s;
    return begin(t, ring, start, &s) && each_continuation(t, &s, actions, count, 1);
}

bool try_shapes(tester *t, const uint64_t *rings, unsigned count) {
    for (unsigned i = 0; i < count; i++) {
        if (!each_shape(rings[i], one_change, t)) {
            return false;
        }
    }
    return true;
}

typedef struct {
    tester *t;
    operation *cut_one;
    size_t length;
    // where one cut is looked for, and the state that it leaves
    const cut *wanted;
    state *found;
} again;

// The state that reopening finds after a cut. A medium that does not open is the affair of the operation that was cut.
static bool after_cut(const again *a, const uint8_t *left, state *s) {
    s->length = a->length;
    memcpy(s->medium, left, a->length);
    make_still(&s->device, left, a->length);
    return opened(a->t, left, a->length, &s->handle, &s->view) == BBL_OK;
}

static bool each_action_after(void *context, const uint8_t *left, const cut *c) {
    again *a = context;
    action actions[ACTIONS];
    unsigned count = sequence_actions(a->t->now.ring, actions);
    state s;
    a->cut_one->is_cut = true;
    a->cut_one->cut = *c;
    return !after_cut(a, left, &s) || each_continuation(a->t, &s, actions, count, 1);
}

static bool change_twice(void *context, uint64_t ring, beginning start) {
    tester *t = context;
    action actions[ACTIONS];
    unsigned count = shape_changes(ring, start.head, start.tail, actions);
    state s, next;
    if (!begin(t, ring, start, &s)) {
        return false;
    }
    for (unsigned i = 0; i < count; i++) {
        carried c;
        bool right;
        copy_state(&next, &s);
        // The answer is judged where the same operation is not cut.
        again a = {.t = t, .cut_one = push(t, actions[i]), .length = s.length};
        bool sense = perform(t, &next, actions[i], &c, &right);
        t->what[0] = 0;
        if (sense && !each_cut(&s.device, c.steps, c.count, each_action_after, &a)) {
            return false;
        }
        t->now.count--;
    }
    return true;
}

bool try_cut_twice(tester *t, const uint64_t *rings, unsigned count) {
    for (unsigned i = 0; i < count; i++) {
        if (!each_shape(rings[i], change_twice, t)) {
            return false;
        }
    }
    return true;
}

static bool look_for(void *context, const uint8_t *left, const cut *c) {
    again *a = context;
    return !same_cut(c, a->wanted) || !after_cut(a, left, a->found);
}

bool try_case(tester *t, const test_case *c) {
    static state s, next;
    if (!begin(t, c->ring, c->start, &s)) {
        return false;
    }
    for (unsigned i = 0; i < c->count; i++) {
        const operation *o = &c->operations[i];
        operation *now = push(t, o->action);
        bool last = i + 1 == c->count;
        if (!o->is_cut || last) {
            if (!operate(t, &s, o->action, true, &next)) {
                return false;
            }
        } else {
            carried steps;
            bool right;
            copy_state(&next, &s);
            bool sense = perform(t, &next, o->action, &steps, &right);
            t->what[0] = 0;
            again a = {.t = t, .length = s.length, .wanted = &o->cut, .found = &next};
            if (!sense || each_cut(&s.device, steps.steps, steps.count, look_for, &a)) {
                return wrong(t, "there is no such cut, or it does not open");
            }
            *now = *o;
        }
        copy_state(&s, &next);
    }
    return true;
}
