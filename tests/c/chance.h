// Numbers that look random and are the same in every run (xorshift).
#ifndef CHANCE_H
#define CHANCE_H

#include <stdint.h>

typedef struct {
    uint64_t state;
} chance;

static inline chance chance_of(uint64_t seed) {
    return (chance){seed * 0x9e3779b97f4a7c15ull | 1};
}

static inline uint64_t any_number(chance *c) {
    c->state ^= c->state << 13;
    c->state ^= c->state >> 7;
    c->state ^= c->state << 17;
    return c->state * 0x2545f4914f6cdd1dull;
}

// Below the limit, which is not 0. A product, where it fits: a division is slow under an emulator.
static inline uint64_t below(chance *c, uint64_t limit) {
    uint64_t any = any_number(c);
    return limit >> 32 ? any % limit : (any >> 32) * limit >> 32;
}

#endif
