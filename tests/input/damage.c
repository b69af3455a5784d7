#include "damage.h"

#include "blackboxlog.h"
#include "chance.h"
#include "format.h"
#include "model.h"

#include <inttypes.h>
#include <stdio.h>
#include <string.h>

enum { BITS = 8 * HEADER_LENGTH, CONTENT_BITS = BITS - 64, LONGEST = 64 };

unsigned damage_extent = 1;

// A log: its numbers and which header is live. The medium is as long as its size says, up to a point: opening reads no ring.
typedef struct {
    uint64_t head, tail, size;
    bool second;
} log_numbers;

static const log_numbers LOGS[] = {
    {0, 0, 1, false},
    {0, 100, 4024, true},
    {UINT64_MAX - 9, UINT64_MAX, 12, false},
    {1ull << 63, (1ull << 63) + 7, 17, true},
    {5, 11, 12, false},
    {0x0123456789abcdefull, 0x0123456789abcfffull, 4096, true},
};
enum { LOG_COUNT = sizeof LOGS / sizeof *LOGS, LARGEST = RING_AT + 4096 };

static uint8_t medium[LARGEST];
static size_t length;
static uint8_t *header;
static uint64_t tried;

static void set_log(const log_numbers *l) {
    length = RING_AT + l->size;
    put_background(medium, length);
    put_log(medium, l->size, l->head, l->tail, l->second);
    header = medium + header_at(l->second);
}

// Flips a bit of the live header, by its number in the order in which the CRC takes them: the 24 bytes of content, each from its
// lowest bit, then the checksum from its lowest bit.
static void flip(unsigned bit) {
    size_t byte = bit < CONTENT_BITS ? HEAD_IN + bit / 8 : (bit - CONTENT_BITS) / 8;
    header[byte] ^= (uint8_t)(1 << bit % 8);
}

static bool refused(uint64_t code, char text[TEXT]) {
    tried++;
    bbl_reply reply = bbl_open(medium, length);
    if (reply.code == code) {
        return true;
    }
    say(text, "opening answers code %" PRIu64 ", and should answer %" PRIu64 "\n      repeat: tests/input/run --open %zu:", reply.code,
        code, length);
    for (size_t i = 0; i < RING_AT; i++) {
        say(text, "%02x", medium[i]);
    }
    return false;
}

bool open_medium(size_t with_length, const char *digits, char text[TEXT]) {
    for (size_t i = 0; i < RING_AT; i++) {
        unsigned byte;
        if (with_length > LARGEST || sscanf(digits + 2 * i, "%2x", &byte) != 1) {
            say(text, "no medium");
            return false;
        }
        medium[i] = (uint8_t)byte;
    }
    bbl_reply is = bbl_open(medium, with_length), should = model_open(medium, with_length);
    say(text, "opening answers code %" PRIu64 ", %" PRIu64 ", %" PRIu64 "; the model %" PRIu64 ", %" PRIu64 ", %" PRIu64, is.code,
        is.number, is.other, should.code, should.number, should.other);
    return memcmp(&is, &should, sizeof is) == 0;
}

// The pattern, whose lowest bit is set, from a bit on.
static bool refused_burst(unsigned from, uint64_t pattern, char text[TEXT]) {
    for (unsigned i = 0; i < 64 && pattern >> i != 0; i++) {
        if (pattern >> i & 1) {
            flip(from + i);
        }
    }
    bool well = refused(BBL_BAD_CHECKSUM, text);
    for (unsigned i = 0; i < 64 && pattern >> i != 0; i++) {
        if (pattern >> i & 1) {
            flip(from + i);
        }
    }
    return well;
}

// All runs of up to `all` bits, and at each place so many random ones of each length beyond.
static bool all_bursts(unsigned all, unsigned random, chance *c, char text[TEXT]) {
    for (unsigned bits = 1; bits <= LONGEST; bits++) {
        for (unsigned from = 0; from + bits <= BITS; from++) {
            uint64_t ends = 1 | 1ull << (bits - 1);
            if (bits > all) {
                for (unsigned i = 0; i < random; i++) {
                    uint64_t pattern = ends | (any_number(c) & ((2ull << (bits - 1)) - 1));
                    if (!refused_burst(from, pattern, text)) {
                        return false;
                    }
                }
                continue;
            }
            for (uint64_t inner = 0; inner < (bits > 2 ? 1ull << (bits - 2) : 1); inner++) {
                if (!refused_burst(from, ends | inner << 1, text)) {
                    return false;
                }
            }
        }
    }
    return true;
}

bool bursts(char text[TEXT]) {
    chance c = chance_of(1);
    unsigned all = damage_extent > 1 ? 14 : 9, random = damage_extent > 1 ? 40 : 2;
    tried = 0;
    for (unsigned i = 0; i < LOG_COUNT; i++) {
        set_log(&LOGS[i]);
        if (!all_bursts(all, random, &c, text)) {
            return false;
        }
    }
    say(text, "%" PRIu64 " media: all runs of up to %u bits, %u of each length up to %u at each place", tried, all, random,
        LONGEST);
    return true;
}

bool flips(char text[TEXT]) {
    tried = 0;
    for (unsigned l = 0; l < (damage_extent > 1 ? LOG_COUNT : 1); l++) {
        set_log(&LOGS[damage_extent > 1 ? l : 1]);
        for (unsigned i = 0; i < BITS; i++) {
            flip(i);
            for (unsigned j = i; j < BITS; j++) {
                if (j > i) {
                    flip(j);
                }
                if (!refused(BBL_BAD_CHECKSUM, text)) {
                    return false;
                }
                for (unsigned k = j + 1; j > i && k < BITS; k++) {
                    flip(k);
                    if (!refused(BBL_BAD_CHECKSUM, text)) {
                        return false;
                    }
                    flip(k);
                }
                if (j > i) {
                    flip(j);
                }
            }
            flip(i);
        }
    }
    say(text, "%" PRIu64 " media", tried);
    return true;
}

// So many bits, all different, below a limit.
static void some_bits(chance *c, unsigned count, unsigned limit, unsigned *bits) {
    for (unsigned i = 0; i < count; i++) {
        bool again;
        do {
            bits[i] = (unsigned)below(c, limit);
            again = false;
            for (unsigned k = 0; k < i; k++) {
                again |= bits[k] == bits[i];
            }
        } while (again);
    }
}

bool more_flips(char text[TEXT]) {
    chance c = chance_of(2);
    tried = 0;
    for (uint64_t i = 0; i < 200000ull * damage_extent; i++) {
        unsigned bits[7], count = 4 + (unsigned)below(&c, 4);
        if (i % 1000 == 0) {
            set_log(&LOGS[i / 1000 % LOG_COUNT]);
        }
        some_bits(&c, count, BITS, bits);
        for (unsigned k = 0; k < count; k++) {
            flip(bits[k]);
        }
        if (!refused(BBL_BAD_CHECKSUM, text)) {
            return false;
        }
        for (unsigned k = 0; k < count; k++) {
            flip(bits[k]);
        }
    }
    say(text, "%" PRIu64 " media", tried);
    return true;
}

bool selector_flips(char text[TEXT]) {
    chance c = chance_of(3);
    tried = 0;
    for (unsigned l = 0; l < 2; l++) {
        set_log(&LOGS[l]);
        uint64_t right = number_at(medium, SELECTOR_AT);
        // all of one, two and three bits
        for (unsigned i = 0; i < 64; i++) {
            for (unsigned j = i; j < 64; j++) {
                for (unsigned k = j; k < 64; k++) {
                    put_number(medium, SELECTOR_AT, right ^ (1ull << i | 1ull << j | 1ull << k));
                    if (!refused(BBL_BAD_SELECTOR, text)) {
                        return false;
                    }
                }
            }
        }
        for (uint64_t i = 0; i < 100000ull * damage_extent; i++) {
            unsigned bits[24], count = 1 + (unsigned)below(&c, 24);
            uint64_t wrong = right;
            some_bits(&c, count, 64, bits);
            for (unsigned k = 0; k < count; k++) {
                wrong ^= 1ull << bits[k];
            }
            put_number(medium, SELECTOR_AT, wrong);
            if (!refused(BBL_BAD_SELECTOR, text)) {
                return false;
            }
        }
        // of the 25 bits in which the two values differ, any 24
        for (unsigned i = 0; i < 64; i++) {
            if ((FIRST ^ SECOND) >> i & 1) {
                put_number(medium, SELECTOR_AT, selector_of(right == FIRST) ^ 1ull << i);
                if (!refused(BBL_BAD_SELECTOR, text)) {
                    return false;
                }
            }
        }
    }
    say(text, "%" PRIu64 " media", tried);
    return true;
}

bool over_the_border(char text[TEXT]) {
    static const log_numbers log = {0, 100, 4024, false};
    set_log(&log);
    if (number_at(header, 0) != 0x4f7d438f09d1b9d5ull) {
        say(text, "the checksum of (0, 100, 4024) is %016" PRIx64, number_at(header, 0));
        return false;
    }
    put_number(header, 0, 0x8eb6c6d648f439d5ull);
    put_number(header, HEAD_IN, 1679);
    if (!refused(BBL_HEAD_PAST_TAIL, text)) {
        return false;
    }
    say(text, "28 flipped bits within 60 as stored: the checksum is right, the head is past the tail, and that is refused");
    return true;
}
