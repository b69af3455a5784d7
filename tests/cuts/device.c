#include "device.h"

#include <stdio.h>
#include <stdlib.h>
#include <string.h>

enum { VALUES = 65 };

static void enough(bool fits, const char *what) {
    if (!fits) {
        fprintf(stderr, "more %s than this test has room for\n", what);
        exit(2);
    }
}

// The values that a piece can have.
typedef struct {
    size_t from, length;
    unsigned count;
    uint8_t bytes[VALUES][8];
} choices;

void make_still(device *d, const uint8_t *medium, size_t length) {
    d->length = length;
    memcpy(d->kept, medium, length);
    d->count = 0;
}

void put_step(uint8_t *medium, const step *s) {
    memcpy(medium + s->at, s->bytes, s->length);
}

static void flush(device *d) {
    for (unsigned i = 0; i < d->count; i++) {
        put_step(d->kept, &d->pending[i]);
    }
    d->count = 0;
}

static void add_pending(device *d, const step *s) {
    enough(d->count < STEPS, "pending writes");
    step *to = &d->pending[d->count++];
    memcpy(to, s, offsetof(step, bytes) + s->length);
}

void settle(device *d, const step *steps, unsigned count) {
    for (unsigned i = 0; i < count; i++) {
        if (steps[i].flush) {
            flush(d);
        } else {
            add_pending(d, &steps[i]);
        }
    }
}

static bool touches(const step *s, size_t from, size_t to) {
    return s->length > 0 && s->at < to && from < s->at + s->length;
}

// Writes what of a step falls into a piece.
static void put_part(const step *s, size_t from, size_t to, uint8_t *piece) {
    for (size_t at = s->at > from ? s->at : from; at < to && at < s->at + s->length; at++) {
        piece[at - from] = s->bytes[at - s->at];
    }
}

static void add_value(choices *c, const uint8_t *value) {
    for (unsigned i = 0; i < c->count; i++) {
        if (memcmp(c->bytes[i], value, c->length) == 0) {
            return;
        }
    }
    enough(c->count < VALUES, "values of a piece");
    memcpy(c->bytes[c->count++], value, c->length);
}

// Some of the writes that touch a piece, in some order: `value` is what those in `used` make of it.
static void add_orders(const device *d, choices *c, const uint8_t *value, unsigned used) {
    add_value(c, value);
    for (unsigned i = 0; i < d->count; i++) {
        if (!(used >> i & 1) && touches(&d->pending[i], c->from, c->from + c->length)) {
            uint8_t next[8];
            memcpy(next, value, c->length);
            put_part(&d->pending[i], c->from, c->from + c->length, next);
            add_orders(d, c, next, used | 1u << i);
        }
    }
}

static bool piece_choices(const device *d, unsigned piece, choices *c) {
    c->from = 8 * (size_t)piece;
    c->length = d->length - c->from < 8 ? d->length - c->from : 8;
    c->count = 0;
    bool touched = false;
    for (unsigned i = 0; i < d->count; i++) {
        touched |= touches(&d->pending[i], c->from, c->from + c->length);
    }
    if (touched) {
        add_orders(d, c, d->kept + c->from, 0);
    }
    return touched;
}

// Every mixture of the pieces of the pending writes but for none of them. Counts through the pieces' values as through the
// digits of a number.
static bool each_mixture(const device *d, unsigned done, bool visit(void *, const uint8_t *, const cut *),
                         void *context) {
    choices all[PIECES];
    uint8_t left[LARGEST];
    cut c = {.done = done};
    for (unsigned piece = 0; 8 * (size_t)piece < d->length; piece++) {
        if (piece_choices(d, piece, &all[c.count])) {
            c.pieces[c.count++] = (uint8_t)piece;
        }
    }
    memcpy(left, d->kept, d->length);
    for (;;) {
        unsigned i = 0;
        while (i < c.count && c.values[i] + 1u == all[i].count) {
            c.values[i] = 0;
            memcpy(left + all[i].from, all[i].bytes[0], all[i].length);
            i++;
        }
        if (i == c.count) {
            return true;
        }
        c.values[i]++;
        memcpy(left + all[i].from, all[i].bytes[c.values[i]], all[i].length);
        if (!visit(context, left, &c)) {
            return false;
        }
    }
}

bool each_cut(const device *before, const step *steps, unsigned count,
              bool visit(void *context, const uint8_t *left, const cut *c), void *context) {
    device d;
    cut none = {0};
    unsigned done = 0, earlier = before->count;
    d.length = before->length;
    memcpy(d.kept, before->kept, before->length);
    memcpy(d.pending, before->pending, before->count * sizeof *before->pending);
    d.count = before->count;
    if (!visit(context, d.kept, &none)) {
        return false;
    }
    for (unsigned i = 0; i < count; i++) {
        if (!steps[i].flush) {
            add_pending(&d, &steps[i]);
            continue;
        }
        if (!each_mixture(&d, done, visit, context)) {
            return false;
        }
        // What was pending is among the mixtures, all of it in order.
        done += d.count - earlier;
        earlier = 0;
        flush(&d);
    }
    // A cut before the last of these writes leaves nothing that this does not: it may not have arrived.
    return each_mixture(&d, done, visit, context);
}
