// coverage FROM TO: runs the archive's functions on arbitrary input, one instruction at a time, and prints the addresses between
// the two that were executed.
#define _GNU_SOURCE
#include "format.h"
#include "fuzz.h"

#include <inttypes.h>
#include <signal.h>
#include <stdio.h>
#include <stdlib.h>
#include <string.h>
#include <ucontext.h>

enum { MOST = 1 << 16, AT_LEAST = 1000, QUIET = 600 };

static uint64_t from, to;
static bool executed[MOST];
static unsigned found;

__attribute__((force_align_arg_pointer)) static void note(int number, siginfo_t *info, void *context) {
    (void)number, (void)info;
    uint64_t at = (uint64_t)((ucontext_t *)context)->uc_mcontext.gregs[REG_RIP];
    if (at >= from && at < to && !executed[at - from]) {
        executed[at - from] = true;
        found++;
    }
}

// With the trap flag set each instruction is followed by a signal.
static void flag(bool on) {
    if (on) {
        __asm__ volatile("pushfq; orq $0x100, (%%rsp); popfq" : : : "memory", "cc");
    } else {
        __asm__ volatile("pushfq; andq $~0x100, (%%rsp); popfq" : : : "memory", "cc");
    }
}

#define STEPPED(RESULT, NAME, PARAMETERS, ARGUMENTS) \
    static RESULT stepped_##NAME PARAMETERS {        \
        flag(true);                                  \
        RESULT result = bbl_##NAME ARGUMENTS;        \
        flag(false);                                 \
        return result;                               \
    }

STEPPED(uint64_t, crc64, (const uint8_t *b, size_t n), (b, n))
STEPPED(bbl_reply, open, (const uint8_t *m, size_t n), (m, n))
STEPPED(bbl_reply, plan_setup, (const uint8_t *m, size_t n, uint64_t *p, size_t w), (m, n, p, w))
STEPPED(bbl_reply, plan_append, (const uint8_t *m, size_t n, bbl_handle h, uint64_t c, uint64_t *p, size_t w),
        (m, n, h, c, p, w))
STEPPED(bbl_reply, plan_advance, (const uint8_t *m, size_t n, bbl_handle h, uint64_t c, uint64_t *p, size_t w),
        (m, n, h, c, p, w))
STEPPED(bbl_stepped, step,
        (uint8_t *m, size_t n, const uint64_t *p, size_t w, const uint8_t *b, size_t c, uint64_t i),
        (m, n, p, w, b, c, i))
STEPPED(bbl_stepped, make_step,
        (uint8_t *m, size_t n, const uint64_t *p, size_t w, const uint8_t *b, size_t c, uint64_t i),
        (m, n, p, w, b, c, i))
STEPPED(bbl_reply, read, (const uint8_t *m, size_t n, bbl_handle h, uint64_t p, uint8_t *o, size_t c), (m, n, h, p, o, c))
STEPPED(bbl_reply, ask, (const uint8_t *m, size_t n, bbl_handle h), (m, n, h))

// Every length of a checksum; the medium that says that its size is 0.
static void checksums(void) {
    uint8_t bytes[80] = {0};
    for (size_t count = 0; count <= 40; count++) {
        stepped_crc64(bytes, count);
    }
    put_log(bytes, 0, 0, 0, false);
    stepped_open(bytes, sizeof bytes);
}

// Reads of every length, whole and over the ring's end.
static void reads(void) {
    static uint8_t medium[72 + 100], out[100];
    for (uint64_t count = 0; count < 100; count++) {
        for (uint64_t head = 0; head < 100; head += 20) {
            stepped_read(medium, sizeof medium, (bbl_handle){0, head, head + 99, 100}, head, out, count);
        }
    }
}

// A step both ways.
static void both_steps(uint8_t *medium, size_t length, const uint64_t *plan, const uint8_t *bytes, size_t count) {
    stepped_step(medium, length, plan, 6, bytes, count, 0);
    stepped_make_step(medium, length, plan, 6, bytes, count, 0);
}

// A copy takes another way where the two buffers are near each other: the bytes of a step right before the place where they go,
// and what is read right behind its place.
static void near_buffers(void) {
    static uint8_t memory[256];
    for (size_t count = 0; count < 40; count++) {
        const uint64_t plan[] = {1, 0, 0, count, 0, 0};
        both_steps(memory + count, 80, plan, memory, count);
        stepped_read(memory, 72 + 60, (bbl_handle){0, 0, count, 60}, 0, memory + 72 + count, count);
        stepped_read(memory, 72 + 60, (bbl_handle){0, 60, 60 + count, 60}, 60, memory + 72 + count, count);
    }
    // the same of the part of a read that is behind the ring's end
    for (size_t count = 2; count < 30; count++) {
        stepped_read(memory, 72 + 60, (bbl_handle){0, 59, 59 + count, 60}, 59, memory + 72 + 30, count);
    }
}

// Long records, to places of every remainder by 16: they are copied from the next multiple of 16 on. And the same of reads, whole and over the
// ring's end, from low and from high positions.
static void long_records(void) {
    static uint8_t memory[2048], bytes[800];
    for (uint64_t at = 0; at < 16; at++) {
        for (size_t count = 505; count < 800; count += 49) {
            const uint64_t plan[] = {1, at, 0, count, 0, 0}, high = (UINT64_C(1) << 40) / 900 * 900;
            both_steps(memory, sizeof memory, plan, bytes, count);
            stepped_read(memory, 72 + 900, (bbl_handle){0, at, at + count, 900}, at, bytes, count);
            stepped_read(memory, 72 + 900, (bbl_handle){0, high - at, high - at + count, 900}, high - at, bytes, count);
        }
    }
    // nothing or a byte is left behind the blocks of 256
    for (size_t count = 512; count < 514; count++) {
        const uint64_t plan[] = {1, 0, 0, count, 0, 0};
        both_steps(memory, sizeof memory, plan, bytes, count);
        stepped_read(memory, 72 + 900, (bbl_handle){0, 0, count, 900}, 0, bytes, count);
    }
}

// A copy takes another way for buffers that overlap. A caller must not lend such; the code copies them byte by byte all the same, from the
// first on.
static void overlapping(void) {
    static uint8_t is[2048], should[2048];
    for (size_t by = 1; by < 100; by += 15) {
        for (size_t count = 2; count < 600; count += count < 40 ? 1 : 17) {
            const uint64_t plan[] = {1, 0, 0, count, 0, 0};
            for (unsigned way = 0; way < 5; way++) {
                // one read has one byte before the ring's end, and the others behind it; one is from a high position
                const size_t from = way < 2 ? 0 : 72, to = from + by + (way == 3);
                for (size_t k = 0; k < sizeof is; k++) {
                    is[k] = should[k] = (uint8_t)(k * 7 + k / 256);
                }
                if (way == 3) {
                    should[72 + by] = should[72 + 599];
                }
                for (size_t k = 0; k < count - (way == 3); k++) {
                    should[to + k] = should[from + k];
                }
                if (way == 0) {
                    stepped_step(is + by, 1024, plan, 6, is, count, 0);
                } else if (way == 1) {
                    stepped_make_step(is + by, 1024, plan, 6, is, count, 0);
                } else {
                    const uint64_t head = way == 2 ? 0 : way == 3 ? 599 : (UINT64_C(1) << 40) / 600 * 600;
                    stepped_read(is, 72 + 600, (bbl_handle){0, head, head + count, 600}, head, is + 72 + by, count);
                }
                if (memcmp(is, should, sizeof is) != 0) {
                    fprintf(stderr, "coverage: %zu bytes by %zu, way %u: not byte by byte\n", count, by, way);
                    exit(1);
                }
            }
        }
    }
}

// Media that end in or before a header: planning looks at the header that is not live all the same.
static void short_media(void) {
    static uint8_t medium[80];
    uint64_t plan[BBL_PLAN_WORDS];
    for (size_t length = 0; length <= sizeof medium; length++) {
        for (uint64_t live = 0; live < 2; live++) {
            stepped_plan_append(medium, length, (bbl_handle){live, 0, 0, 1}, 0, plan, BBL_PLAN_WORDS);
        }
    }
}

// A log that is used for a while: of the header that is written next some pieces stand there already; after two appends of
// nothing all of them do.
static void usual_life(void) {
    static uint8_t medium[72 + 10];
    static const uint8_t bytes[9];
    static const struct {
        bool advance;
        uint64_t count;
    } life[] = {{false, 3}, {false, 0}, {false, 0}, {true, 3}, {true, 3}, {true, 3}, {false, 9}, {true, 12}, {false, 5}};
    uint64_t plan[BBL_PLAN_WORDS];
    bbl_reply reply = stepped_plan_setup(medium, sizeof medium, plan, BBL_PLAN_WORDS);
    for (size_t k = 0;; k++) {
        for (uint64_t i = 0; i < reply.steps; i++) {
            stepped_step(medium, sizeof medium, plan, BBL_PLAN_WORDS, bytes, sizeof bytes, i);
        }
        if (k == sizeof life / sizeof *life) {
            return;
        }
        reply = life[k].advance
                    ? stepped_plan_advance(medium, sizeof medium, reply.handle, life[k].count, plan, BBL_PLAN_WORDS)
                    : stepped_plan_append(medium, sizeof medium, reply.handle, life[k].count, plan, BBL_PLAN_WORDS);
    }
}

int main(int count, char **words) {
    static const log_under_test stepped = {
        "archive",    stepped_open, stepped_plan_setup, stepped_plan_append, stepped_plan_advance,
        stepped_step, stepped_read, stepped_ask,        stepped_make_step,
    };
    if (count != 3) {
        return 2;
    }
    from = strtoull(words[1], NULL, 16);
    to = strtoull(words[2], NULL, 16);
    if (to <= from || to - from > MOST) {
        fprintf(stderr, "coverage: no such range\n");
        return 2;
    }
    struct sigaction action = {.sa_flags = SA_SIGINFO, .sa_sigaction = note};
    sigemptyset(&action.sa_mask);
    sigaction(SIGTRAP, &action, NULL);
    checksums();
    reads();
    near_buffers();
    long_records();
    overlapping();
    short_media();
    usual_life();
    // until nothing new was found for some time
    fuzz f = fuzz_of(&stepped);
    uint64_t i = 0, last = 0;
    while (i < AT_LEAST || i < last + QUIET) {
        unsigned before = found;
        if (fuzz_cases(&f, i, i + 1) == i) {
            fprintf(stderr, "coverage: %s\n", f.wrong);
            return 1;
        }
        i++;
        last = found > before ? i : last;
    }
    printf("%" PRIu64 " inputs\n", i);
    for (uint64_t at = from; at < to; at++) {
        if (executed[at - from]) {
            printf("%" PRIx64 "\n", at);
        }
    }
    return 0;
}
