// In place of numbers that look random: the bytes that libFuzzer hands over, and 0 when they are used up. So what it changes in them
// changes what a case of tests/input is made of.
#ifndef CHANCE_H
#define CHANCE_H

#include <stddef.h>
#include <stdint.h>

extern const uint8_t *handed_over;
extern size_t handed_over_count;

// how many bytes were used
typedef struct {
    size_t used;
} chance;

static inline chance chance_of(uint64_t seed) {
    (void)seed;
    return (chance){0};
}

static inline uint64_t next_bytes(chance *c, unsigned count) {
    uint64_t all = 0;
    for (unsigned i = 0; i < count; i++) {
        all = all << 8 | (c->used < handed_over_count ? handed_over[c->used++] : 0);
    }
    return all;
}

static inline uint64_t any_number(chance *c) {
    return next_bytes(c, 8);
}

// Below the limit, which is not 0, by as few bytes as it takes.
static inline uint64_t below(chance *c, uint64_t limit) {
    return next_bytes(c, limit <= 1 ? 0 : limit <= 256 ? 1 : limit <= 65536 ? 2 : 8) % limit;
}

#endif
