#include "groups.h"

#include "format.h"

#include <string.h>

// Whether a store lies within a put and has its bytes.
static bool belongs(const store *s, const put *p) {
    return s->at >= p->at && s->at + s->length <= p->at + p->length &&
           memcmp(s->bytes, p->bytes + (s->at - p->at), s->length) == 0;
}

static void say_store(const store *s, char text[TEXT]) {
    say(text, "%zu bytes at %zu:", s->length, s->at);
    for (size_t i = 0; i < s->length; i++) {
        say(text, " %02x", s->bytes[i]);
    }
}

// Whether the stores from `from` to `to` cover the put.
static bool covered(const put *p, unsigned from, unsigned to) {
    static bool is[REGION];
    memset(is, 0, p->length);
    for (unsigned i = from; i < to; i++) {
        memset(is + (traced[i].at - p->at), 1, traced[i].length);
    }
    return memchr(is, 0, p->length) == NULL;
}

// Whether they leave the pieces of selector and headers whole: the selector is one store of just these 8 bytes, each piece of a
// header is within one store.
static bool whole(unsigned from, unsigned to, char text[TEXT]) {
    unsigned selectors = 0;
    for (unsigned i = from; i < to; i++) {
        const store *s = &traced[i];
        size_t end = s->at + s->length;
        bool selector = s->at < SELECTOR_AT + PIECE;
        if (selector && (s->at != SELECTOR_AT || s->length != PIECE || selectors++ > 0)) {
            say(text, "the selector is stored by ");
        } else if (s->at < RING_AT && (s->at % PIECE != 0 || (end < RING_AT && end % PIECE != 0))) {
            say(text, "a piece of a header is stored by ");
        } else {
            continue;
        }
        say_store(s, text);
        return false;
    }
    return true;
}

// The next put that has bytes, or none.
static const put *following(const put *puts, unsigned count, unsigned p) {
    do {
        p++;
    } while (p < count && puts[p].length == 0);
    return p < count ? &puts[p] : NULL;
}

bool in_groups(const put *puts, unsigned count, char text[TEXT]) {
    unsigned i = 0;
    for (unsigned p = 0; p < count; p++) {
        const put *next = following(puts, count, p);
        unsigned from = i;
        while (puts[p].length > 0 && i < traced_count && belongs(&traced[i], &puts[p]) &&
               !(next != NULL && belongs(&traced[i], next) && covered(&puts[p], from, i))) {
            i++;
        }
        if (!covered(&puts[p], from, i)) {
            say(text, "put %u, of %zu bytes at %zu, is not whole when ", p, puts[p].length, puts[p].at);
            if (i < traced_count) {
                say_store(&traced[i], text);
                say(text, " is stored");
            } else {
                say(text, "all is stored");
            }
            return false;
        }
        if (!whole(from, i, text)) {
            return false;
        }
    }
    if (i < traced_count) {
        say_store(&traced[i], text);
        say(text, " is stored outside the plan");
        return false;
    }
    for (i = 0; i < traced_count; i++) {
        if (traced[i].reads || traced[i].split) {
            say_store(&traced[i], text);
            say(text, traced[i].reads ? " depends on what was there" : " is not one run");
            return false;
        }
    }
    return true;
}
