/* The C interface, tried through its header: every answer and every refusal with its numbers, the hooks, the refusals that need addresses.
 * Prints what fails, and 'N passed, M failed' as its last line. */
#include <stddef.h>
#include <stdint.h>

static void written(const uint8_t *address, size_t length);
static void flushed(void);
static void persisted(const uint8_t *address, size_t length);
#define BBL_WRITTEN(address, length) written(address, length)
#define BBL_FLUSH() flushed()
#define BBL_PERSIST(address, length) persisted(address, length)
#include "blackboxlog.h"

#include <inttypes.h>
#include <stdio.h>
#include <stdlib.h>
#include <string.h>

#define MOST 4096

static unsigned passed, failed;
static uint64_t aligned_medium[MOST / 8], aligned_before[MOST / 8];
static uint8_t *const medium = (uint8_t *)aligned_medium;
static uint8_t *const before = (uint8_t *)aligned_before;

static void count(int good, const char *what, int line)
{
    if (good) {
        passed++;
    } else {
        failed++;
        printf("FAILED api.c:%d: %s\n", line, what);
    }
}

#define CHECK(condition) count((condition) != 0, #condition, __LINE__)

static void code_is(bbl_reply reply, uint64_t code, uint64_t number, uint64_t other, int line)
{
    const int good = reply.code == code && reply.number == number && reply.other == other;
    if (good) {
        passed++;
    } else {
        failed++;
        printf("FAILED api.c:%d: code %" PRIu64 " (%s), number %" PRIu64 ", other %" PRIu64 "\n", line, reply.code,
               bbl_reason(reply.code), reply.number, reply.other);
    }
}

#define ANSWERS(reply, code, number, other) code_is(reply, code, number, other, __LINE__)

/* ---- hooks: what was told, in order */

enum telling { WRITTEN, PERSIST, FLUSH };

static struct {
    enum telling hook;
    const uint8_t *address;
    size_t length;
} told[64];
static unsigned tellings;

static void tell(enum telling hook, const uint8_t *address, size_t length)
{
    tellings %= 64; /* only one operation is looked at */
    told[tellings].hook = hook;
    told[tellings].address = address;
    told[tellings].length = length;
    tellings++;
}

static void written(const uint8_t *address, size_t length)
{
    tell(WRITTEN, address, length);
}

static void flushed(void)
{
    tell(FLUSH, NULL, 0);
}

static void persisted(const uint8_t *address, size_t length)
{
    tell(PERSIST, address, length);
}

static int is_told(unsigned i, enum telling hook, const uint8_t *address, size_t length)
{
    return told[i].hook == hook && told[i].address == address && told[i].length == length;
}

static void forget(void)
{
    tellings = 0;
}

/* ---- media */

static uint64_t number_at(const uint8_t *m, size_t at)
{
    uint64_t x = 0;
    int i;
    for (i = 7; i >= 0; i--) {
        x = x << 8 | m[at + (size_t)i];
    }
    return x;
}

static void put_number(uint8_t *m, size_t at, uint64_t x)
{
    int i;
    for (i = 0; i < 8; i++) {
        m[at + (size_t)i] = (uint8_t)(x >> 8 * i);
    }
}

static void put_header(uint8_t *m, size_t at, uint64_t head, uint64_t tail, uint64_t size)
{
    put_number(m, at + 8, head);
    put_number(m, at + 16, tail);
    put_number(m, at + 24, size);
    put_number(m, at, bbl_crc64(m + at + 8, 24));
}

static const uint64_t first_selector = UINT64_C(0xa32842d19001605e);
static const uint64_t second_selector = UINT64_C(0xab21aa73069531b7);

static void remember(void)
{
    memcpy(before, medium, MOST);
}

static int unchanged(void)
{
    return memcmp(before, medium, MOST) == 0;
}

static int same(bbl_handle a, bbl_handle b)
{
    return a.live == b.live && a.head == b.head && a.tail == b.tail && a.size == b.size;
}

static bbl_handle handle_of(uint64_t live, uint64_t head, uint64_t tail, uint64_t size)
{
    bbl_handle handle;
    handle.live = live;
    handle.head = head;
    handle.tail = tail;
    handle.size = size;
    return handle;
}

static bbl_handle set_up(size_t length)
{
    bbl_reply reply;
    memset(medium, 0xee, MOST);
    reply = bbl_setup(medium, length);
    CHECK(reply.code == BBL_OK && reply.number == length - 73);
    return reply.handle;
}

/* ---- the tests */

static void checksum(void)
{
    uint8_t content[24] = {0};
    CHECK(bbl_crc64((const uint8_t *)"123456789", 9) == UINT64_C(0x995dc9bbdf1939fa));
    CHECK(bbl_crc64(NULL, 0) == 0);
    put_number(content, 16, 4024);
    CHECK(bbl_crc64(content, 24) == UINT64_C(0x329fc849810e7b1d));
    put_number(content, 8, 100);
    CHECK(bbl_crc64(content, 24) == UINT64_C(0x4f7d438f09d1b9d5));
    put_number(content, 8, 0);
    put_number(content, 16, 1);
    CHECK(bbl_crc64(content, 24) == UINT64_C(0x6c28174384cf2c2c));
}

/* document 01's run */
static void the_run(void)
{
    bbl_handle log = set_up(82);
    bbl_reply reply;
    uint8_t out[8];
    ANSWERS(bbl_append(medium, 82, &log, (const uint8_t *)"abcdef", 6), BBL_OK, 0, 0);
    ANSWERS(bbl_append(medium, 82, &log, (const uint8_t *)"ghij", 4), BBL_NO_ROOM, 3, 0);
    ANSWERS(bbl_advance(medium, 82, &log, 5), BBL_OK, 0, 0);
    ANSWERS(bbl_append(medium, 82, &log, (const uint8_t *)"ghijklm", 7), BBL_OK, 6, 0);
    CHECK(memcmp(medium + 78, "ghij", 4) == 0 && memcmp(medium + 72, "klm", 3) == 0);
    ANSWERS(bbl_get(medium, 82, log, 5, out, 8), BBL_OK, 0, 0);
    CHECK(memcmp(out, "fghijklm", 8) == 0);
    ANSWERS(bbl_append(medium, 82, &log, (const uint8_t *)"no", 2), BBL_NO_ROOM, 1, 0);
    reply = bbl_ask(medium, 82, log);
    ANSWERS(reply, BBL_OK, 9, 0);
    CHECK(reply.handle.head == 5 && reply.handle.tail == 13);
    reply = bbl_open(medium, 82);
    ANSWERS(reply, BBL_OK, 0, 0);
    CHECK(same(reply.handle, log) && log.size == 10);
}

static void opening(void)
{
    size_t length;
    bbl_reply reply;
    memset(medium, 0, MOST);
    ANSWERS(bbl_open(NULL, 0), BBL_TOO_SHORT, 73, 0);
    for (length = 1; length <= 72; length++) {
        ANSWERS(bbl_open(medium, length), BBL_TOO_SHORT, 73, 0);
    }
    ANSWERS(bbl_open(medium, 73), BBL_BAD_SELECTOR, 0, 0);
    put_number(medium, 0, second_selector ^ 1);
    ANSWERS(bbl_open(medium, 100), BBL_BAD_SELECTOR, second_selector ^ 1, 0);
    put_number(medium, 0, second_selector);
    put_header(medium, 40, 0, 0, 28);
    medium[40] ^= 1;
    reply = bbl_open(medium, 100);
    ANSWERS(reply, BBL_BAD_CHECKSUM, number_at(medium, 40), number_at(medium, 40) ^ 1);
    CHECK(reply.handle.live == 1);
    put_number(medium, 0, first_selector);
    reply = bbl_open(medium, 100);
    CHECK(reply.code == BBL_BAD_CHECKSUM && reply.number == 0 && reply.handle.live == 0);
    put_header(medium, 8, 1, 0, 0);
    ANSWERS(bbl_open(medium, 100), BBL_SIZE_ZERO, 0, 0);
    put_header(medium, 8, UINT64_MAX, 7, 28);
    ANSWERS(bbl_open(medium, 100), BBL_HEAD_PAST_TAIL, UINT64_MAX, 7);
    put_header(medium, 8, 5, 33, 28);
    reply = bbl_open(medium, 100);
    ANSWERS(reply, BBL_TOO_FULL, 5, 33);
    CHECK(reply.handle.size == 28);
    put_header(medium, 8, 5, 32, 29);
    ANSWERS(bbl_open(medium, 100), BBL_WRONG_SIZE, 29, 28);
    put_header(medium, 8, 5, 32, 28);
    reply = bbl_open(medium, 100);
    ANSWERS(reply, BBL_OK, 0, 0);
    CHECK(same(reply.handle, handle_of(0, 5, 32, 28)));
    /* opening takes an address that is not aligned */
    memmove(medium + 1, medium, 100);
    CHECK(same(bbl_open(medium + 1, 100).handle, handle_of(0, 5, 32, 28)));
}

static void refusals_write_nothing(void)
{
    bbl_handle log = set_up(100);
    bbl_handle old;
    uint8_t out[16];
    uint64_t plan[BBL_PLAN_WORDS];
    const uint8_t bytes[64] = {1};
    memset(out, 7, sizeof out);
    CHECK(bbl_append(medium, 100, &log, bytes, 20).code == BBL_OK);
    CHECK(bbl_advance(medium, 100, &log, 5).code == BBL_OK);
    remember();
    forget();
    old = log;
    ANSWERS(bbl_setup(medium, 72), BBL_TOO_SHORT, 73, 0);
    ANSWERS(bbl_setup(NULL, 0), BBL_TOO_SHORT, 73, 0);
    ANSWERS(bbl_append(medium, 100, &log, bytes, 13), BBL_NO_ROOM, 12, 0);
    ANSWERS(bbl_plan_append(medium, 100, log, UINT64_MAX, plan, BBL_PLAN_WORDS), BBL_NO_ROOM, 12, 0);
    ANSWERS(bbl_advance(medium, 100, &log, 4), BBL_BEFORE_HEAD, 5, 0);
    ANSWERS(bbl_advance(medium, 100, &log, 21), BBL_BEYOND_TAIL, 20, 0);
    ANSWERS(bbl_advance(medium, 100, &log, UINT64_MAX), BBL_BEYOND_TAIL, 20, 0);
    ANSWERS(bbl_get(medium, 100, log, 4, out, 1), BBL_BEFORE_HEAD, 5, 0);
    ANSWERS(bbl_get(medium, 100, log, 5, out, 16), BBL_BEYOND_TAIL, 20, 0);
    ANSWERS(bbl_get(medium, 100, log, 21, out, 0), BBL_BEYOND_TAIL, 20, 0);
    ANSWERS(bbl_get(medium, 100, log, UINT64_MAX, out, 1), BBL_BEYOND_TAIL, 20, 0);
    /* handles that can't be this medium's log */
    ANSWERS(bbl_append(medium, 99, &log, bytes, 1), BBL_BAD_HANDLE, 0, 0);
    ANSWERS(bbl_advance(medium, 101, &log, 6), BBL_BAD_HANDLE, 0, 0);
    ANSWERS(bbl_get(medium, 0, log, 5, out, 1), BBL_BAD_HANDLE, 0, 0);
    ANSWERS(bbl_ask(medium, 99, log), BBL_BAD_HANDLE, 0, 0);
    CHECK(same(log, old));
    log = handle_of(2, 5, 20, 28);
    ANSWERS(bbl_append(medium, 100, &log, bytes, 1), BBL_BAD_HANDLE, 0, 0);
    ANSWERS(bbl_advance(medium, 100, &log, 5), BBL_BAD_HANDLE, 0, 0);
    ANSWERS(bbl_get(medium, 100, log, 5, out, 1), BBL_BAD_HANDLE, 0, 0);
    ANSWERS(bbl_ask(medium, 100, log), BBL_BAD_HANDLE, 0, 0);
    log = handle_of(0, 21, 20, 28);
    ANSWERS(bbl_ask(medium, 100, log), BBL_BAD_HANDLE, 0, 0);
    log = handle_of(0, 0, 28, 28);
    ANSWERS(bbl_ask(medium, 100, log), BBL_BAD_HANDLE, 0, 0);
    log = handle_of(0, 0, 0, UINT64_MAX);
    ANSWERS(bbl_ask(medium, 100, log), BBL_BAD_HANDLE, 0, 0);
    /* plans with too few numbers */
    log = old;
    ANSWERS(bbl_plan_setup(medium, 100, plan, BBL_PLAN_WORDS - 1), BBL_SHORT_PLAN, BBL_PLAN_WORDS, 0);
    ANSWERS(bbl_plan_append(medium, 100, log, 1, NULL, 0), BBL_SHORT_PLAN, BBL_PLAN_WORDS, 0);
    ANSWERS(bbl_plan_advance(medium, 100, log, 6, plan, 1), BBL_SHORT_PLAN, BBL_PLAN_WORDS, 0);
    CHECK(unchanged());
    CHECK(tellings == 0);
    CHECK(out[0] == 7 && out[15] == 7);
}

static void no_bytes(void)
{
    bbl_handle log = set_up(80);
    ANSWERS(bbl_append(medium, 80, &log, NULL, 0), BBL_OK, 0, 0);
    ANSWERS(bbl_get(medium, 80, log, 0, NULL, 0), BBL_OK, 0, 0);
    ANSWERS(bbl_advance(medium, 80, &log, 0), BBL_OK, 0, 0);
    CHECK(same(bbl_open(medium, 80).handle, log));
    /* a log of capacity 0 */
    log = set_up(73);
    ANSWERS(bbl_append(medium, 73, &log, NULL, 0), BBL_OK, 0, 0);
    ANSWERS(bbl_append(medium, 73, &log, (const uint8_t *)"x", 1), BBL_NO_ROOM, 0, 0);
    CHECK(same(bbl_open(medium, 73).handle, log));
}

/* BBL_PERSIST is told of every put, in order, and of nothing else. BBL_WRITTEN is told of all of them before the flush, of those of a header in
 * one call. A flush stands before the selector's put and after it. */
static void hooks(size_t length, bbl_handle log, unsigned runs)
{
    const uint8_t *bytes = (const uint8_t *)"0123456789abcdef";
    unsigned i, k, since = 0, puts = 0, writings = 0;
    remember();
    forget();
    CHECK(bbl_append(medium, length, &log, bytes, 12).code == BBL_OK);
    CHECK(tellings >= 8 && tellings < 64);
    for (i = 0; i < tellings; i++) {
        if (told[i].hook != FLUSH) {
            CHECK(told[i].length > 0 && told[i].address >= medium && told[i].address + told[i].length <= medium + length);
        }
        if (told[i].hook == PERSIST) {
            memcpy(before + (told[i].address - medium), told[i].address, told[i].length);
            puts++;
        } else if (told[i].hook == WRITTEN) {
            writings++;
            CHECK(told[i].length <= 32);
        } else {
            /* each put since the last flush is in one of the runs that were told since, and behind it */
            for (k = since; k < i; k++) {
                unsigned w = k;
                while (w < i && !(told[w].hook == WRITTEN && told[w].address <= told[k].address &&
                                  told[k].address + told[k].length <= told[w].address + told[w].length)) {
                    w++;
                }
                CHECK(w < i);
            }
            since = i + 1;
        }
    }
    CHECK(since == tellings);
    CHECK(unchanged()); /* the puts make of the old medium the new one */
    CHECK(writings == runs + 2 && puts > writings); /* the bytes, the header, the selector */
    CHECK(is_told(tellings - 1, FLUSH, NULL, 0) && is_told(tellings - 2, WRITTEN, medium, 8));
    CHECK(is_told(tellings - 3, PERSIST, medium, 8) && is_told(tellings - 4, FLUSH, NULL, 0));
    CHECK(same(bbl_open(medium, length).handle, log));
}

static void all_hooks(void)
{
    bbl_handle log = set_up(72 + 32);
    hooks(72 + 32, log, 1);
    log = set_up(72 + 32);
    CHECK(bbl_append(medium, 72 + 32, &log, (const uint8_t *)"0123456789abcdef0123456789", 26).code == BBL_OK);
    CHECK(bbl_advance(medium, 72 + 32, &log, 26).code == BBL_OK);
    hooks(72 + 32, log, 2);
}

static void addresses(void)
{
    bbl_handle log = set_up(256);
    const bbl_handle old = log;
    uint8_t *m;
    size_t off;
    CHECK(bbl_append(medium, 256, &log, (const uint8_t *)"abc", 3).code == BBL_OK);
    for (off = 1; off < 8; off++) {
        m = medium + off;
        memset(medium, 0xee, MOST);
        remember();
        ANSWERS(bbl_setup(m, 256), BBL_MISALIGNED, off, 0);
        log = old;
        ANSWERS(bbl_append(m, 256, &log, (const uint8_t *)"abc", 3), BBL_MISALIGNED, off, 0);
        ANSWERS(bbl_advance(m, 256, &log, 0), BBL_MISALIGNED, off, 0);
        ANSWERS(bbl_get(m, 256, log, 0, NULL, 0), BBL_MISALIGNED, off, 0);
        CHECK(unchanged() && same(log, old));
    }
    /* a medium within a larger buffer, and bytes before it, over its borders, in it, behind it */
    memset(medium, 0xee, MOST);
    m = medium + 64;
    log = bbl_setup(m, 256).handle;
    CHECK(bbl_append(m, 256, &log, (const uint8_t *)"0123456789", 10).code == BBL_OK);
    for (off = 0; off < 400; off++) {
        const int apart = off + 10 <= 64 || off >= 64 + 256;
        const uint64_t tail = log.tail;
        remember();
        ANSWERS(bbl_append(m, 256, &log, medium + off, 10), apart ? BBL_OK : BBL_OVERLAP, apart ? tail : 0, 0);
        CHECK(apart || unchanged());
        ANSWERS(bbl_get(m, 256, log, tail - 10, medium + off, 10), apart ? BBL_OK : BBL_OVERLAP, 0, 0);
        CHECK(apart || unchanged());
        CHECK(bbl_advance(m, 256, &log, log.tail - 10).code == BBL_OK);
    }
    remember();
    ANSWERS(bbl_append(m, 256, &log, medium, MOST), BBL_OVERLAP, 0, 0);
    ANSWERS(bbl_append(m, 256, &log, before, MOST), BBL_NO_ROOM, 183 - 10, 0);
    CHECK(unchanged());
    CHECK(bbl_append(m, 256, &log, m + 3, 0).code == BBL_OK); /* no bytes overlap nothing */
}

static void steps(void)
{
    bbl_handle log = set_up(100);
    uint64_t plan[BBL_PLAN_WORDS];
    const uint8_t bytes[20] = "0123456789abcdefghi";
    bbl_stepped done;
    bbl_reply reply;
    uint64_t i;
    /* a step that is not there; a plan that is too short for it; no bytes, a medium that is too short for its write */
    reply = bbl_plan_append(medium, 100, log, 20, plan, BBL_PLAN_WORDS);
    CHECK(reply.code == BBL_OK && reply.steps > 0 && same(reply.handle, handle_of(1, 0, 20, 28)));
    remember();
    CHECK(bbl_step(medium, 100, plan, BBL_PLAN_WORDS, bytes, 20, UINT64_MAX).code == BBL_STEP_REFUSED);
    CHECK(bbl_step(medium, 100, NULL, 0, bytes, 20, 0).code == BBL_STEP_REFUSED);
    CHECK(bbl_step(medium, 100, plan, BBL_PLAN_WORDS, NULL, 0, 0).code == BBL_STEP_REFUSED);
    CHECK(bbl_step(medium, 80, plan, BBL_PLAN_WORDS, bytes, 20, 0).code == BBL_STEP_REFUSED);
    CHECK(bbl_step(NULL, 0, plan, BBL_PLAN_WORDS, bytes, 20, 0).code == BBL_STEP_REFUSED);
    CHECK(bbl_make_step(medium, 100, plan, BBL_PLAN_WORDS, bytes, 20, UINT64_MAX).code == BBL_STEP_REFUSED);
    CHECK(bbl_make_step(medium, 100, plan, BBL_PLAN_WORDS, bytes, 20, BBL_PLAN_WORDS / 6).code == BBL_STEP_REFUSED);
    CHECK(bbl_make_step(medium, 100, NULL, 0, bytes, 20, 0).code == BBL_STEP_REFUSED);
    CHECK(bbl_make_step(medium, 100, plan, 5, bytes, 20, 0).code == BBL_STEP_REFUSED);
    CHECK(bbl_make_step(NULL, 0, plan, BBL_PLAN_WORDS, bytes, 20, 1).code == BBL_STEP_REFUSED);
    CHECK(bbl_put_bytes(medium, 100, 81, bytes, 20, 0, 20) == 0 && bbl_put_bytes(medium, 100, 90, bytes, 20, 0, 21) == 0);
    CHECK(bbl_put_bytes(medium, 100, 90, bytes, 20, 5, 4) == 0 && bbl_put_bytes(medium, 100, 90, bytes, 20, 5, 5) == 0);
    CHECK(bbl_put_bytes(medium, 100, UINT64_MAX, bytes, 20, 5, 6) == 0 && bbl_put_bytes(NULL, 0, 0, bytes, 20, 5, 6) == 0);
    CHECK(bbl_put_bytes(medium, 100, 0, NULL, 0, 0, 1) == 0 && bbl_put_bytes(medium, 100, 0, bytes, 20, 19, UINT64_MAX) == 0);
    CHECK(bbl_put_number(medium, 100, 93, 5) == 0 && bbl_put_number(medium, 100, 100, 5) == 0 && bbl_put_number(medium, 7, 0, 5) == 0);
    CHECK(bbl_put_number(medium, 100, UINT64_MAX, 5) == 0 && bbl_put_number(medium, 100, UINT64_MAX - 6, 5) == 0 && bbl_put_number(NULL, 0, 0, 5) == 0);
    CHECK(unchanged());
    /* the handle in its four numbers */
    {
        uint64_t apart[BBL_PLAN_WORDS];
        const bbl_reply of = bbl_plan_append_of(medium, 100, log.live, log.head, log.tail, log.size, 20, apart, BBL_PLAN_WORDS);
        CHECK(of.code == BBL_OK && of.number == reply.number && of.steps == reply.steps && same(of.handle, reply.handle));
        ANSWERS(bbl_plan_append_of(medium, 100, 2, log.head, log.tail, log.size, 20, apart, BBL_PLAN_WORDS), BBL_BAD_HANDLE, 0, 0);
        ANSWERS(bbl_plan_append_of(medium, 100, 0, 0, 0, 27, 20, apart, BBL_PLAN_WORDS), BBL_BAD_HANDLE, 0, 0);
        ANSWERS(bbl_plan_append_of(medium, 100, 0, 7, 10, 28, 25, apart, BBL_PLAN_WORDS), BBL_NO_ROOM, 24, 0);
    }
    /* opened after each step: the log before, until the selector is written, and then the log after */
    for (i = 0; i < reply.steps; i++) {
        bbl_reply now;
        done = bbl_step(medium, 100, plan, BBL_PLAN_WORDS, bytes, 20, i);
        CHECK(done.code == BBL_STEP_PUT || done.code == BBL_STEP_FLUSH);
        now = bbl_open(medium, 100);
        CHECK(now.code == BBL_OK && (same(now.handle, log) || same(now.handle, reply.handle)));
        CHECK(same(now.handle, reply.handle) == (number_at(medium, 0) == second_selector));
    }
    CHECK(same(bbl_open(medium, 100).handle, reply.handle));
    /* a plan that was overwritten is answered, and not carried out further */
    log = reply.handle;
    reply = bbl_plan_advance(medium, 100, log, 20, plan, BBL_PLAN_WORDS);
    memset(plan, 0xff, sizeof plan);
    remember();
    ANSWERS(bbl_carry_out(medium, 100, plan, BBL_PLAN_WORDS, NULL, 0, reply), BBL_BROKEN_PLAN, 0, 0);
    CHECK(unchanged());
    /* the step that was refused is named: one that is no step, a number that does not fit, and one that is not there any more */
    for (i = 0; i < 3; i++) {
        reply = bbl_plan_setup(medium, 100, plan, BBL_PLAN_WORDS);
        CHECK(reply.steps == 4);
        plan[12] = i == 0 ? 4 : plan[12];
        plan[13] = i == 1 ? 93 : plan[13];
        ANSWERS(bbl_carry_out(medium, 100, plan, i == 2 ? 17 : BBL_PLAN_WORDS, NULL, 0, reply), BBL_BROKEN_PLAN, 2, 0);
    }
    /* no steps of no plan */
    reply.steps = 0;
    CHECK(bbl_carry_out(medium, 100, NULL, 0, NULL, 0, reply).code == BBL_OK);
    /* a number, from its lowest byte, and nothing beside it */
    memset(medium, 0xee, MOST);
    remember();
    CHECK(bbl_put_number(medium, 100, 92, UINT64_C(0x0807060504030201)) == 8);
    memcpy(before + 92, "\1\2\3\4\5\6\7\10", 8);
    CHECK(unchanged());
    /* bytes from one to another */
    CHECK(bbl_put_bytes(medium, 100, 86, bytes, 20, 3, 9) == 6);
    memcpy(before + 86, "345678", 6);
    CHECK(unchanged());
}

/* any plan: it writes within the medium, where it says, or is refused */
static uint64_t seed = 88172645463325252u;

static uint64_t random_number(void)
{
    seed ^= seed << 13;
    seed ^= seed >> 7;
    seed ^= seed << 17;
    return seed;
}

static void any_plan(void)
{
    uint64_t plan[BBL_PLAN_WORDS];
    const uint8_t bytes[30] = {9, 9, 9};
    unsigned round, k, wrong = 0;
    for (round = 0; round < 20000; round++) {
        bbl_stepped done, made;
        uint64_t i;
        for (k = 0; k < BBL_PLAN_WORDS; k++) {
            const uint64_t x = random_number();
            plan[k] = k % 6 == 0 ? x % 5 : x % 3 == 0 ? x : x % 128;
        }
        memset(medium, 0xee, MOST);
        remember();
        i = random_number() % 9;
        done = bbl_step(medium + 64, 100, plan, BBL_PLAN_WORDS, bytes, 30, i);
        if (done.code == BBL_STEP_PUT) {
            wrong += done.at > 100 || done.length > 100 - done.at;
            memcpy(before + 64 + done.at, medium + 64 + done.at, (size_t)done.length);
        }
        wrong += !unchanged();
        /* bbl_make_step answers and leaves the same */
        memset(medium, 0xee, MOST);
        made = bbl_make_step(medium + 64, 100, plan, BBL_PLAN_WORDS, bytes, 30, i);
        wrong += made.code != done.code || made.at != done.at || made.length != done.length || !unchanged();
    }
    CHECK(wrong == 0);
}

/* sequences of operations, against a list of all bytes that were ever appended */
static void sequences(void)
{
    static uint8_t all[200000];
    size_t size;
    for (size = 1; size <= 40; size++) {
        const size_t length = 72 + size;
        bbl_handle log = set_up(length);
        uint64_t head = 0, tail = 0;
        unsigned round, wrong = 0;
        for (round = 0; round < 400; round++) {
            const uint64_t n = random_number() % (size + 2);
            const uint64_t room = size - 1 - (tail - head);
            bbl_reply reply;
            uint8_t bytes[64], out[64];
            uint64_t k;
            for (k = 0; k < n; k++) {
                bytes[k] = (uint8_t)random_number();
            }
            switch (random_number() % 4) {
            case 0:
            case 1:
                reply = bbl_append(medium, length, &log, bytes, (size_t)n);
                if (n > room) {
                    wrong += reply.code != BBL_NO_ROOM || reply.number != room;
                } else {
                    wrong += reply.code != BBL_OK || reply.number != tail;
                    memcpy(all + tail, bytes, (size_t)n);
                    tail += n;
                }
                break;
            case 2:
                reply = bbl_advance(medium, length, &log, head + n);
                if (head + n > tail) {
                    wrong += reply.code != BBL_BEYOND_TAIL || reply.number != tail;
                } else {
                    wrong += reply.code != BBL_OK;
                    head += n;
                }
                break;
            default:
                reply = bbl_open(medium, length);
                wrong += reply.code != BBL_OK || !same(reply.handle, log);
                log = reply.handle;
            }
            reply = bbl_get(medium, length, log, head, out, (size_t)(tail - head));
            wrong += reply.code != BBL_OK || memcmp(out, all + head, (size_t)(tail - head)) != 0;
            forget();
        }
        CHECK(wrong == 0);
    }
}

static void the_last_position(void)
{
    bbl_handle log;
    memset(medium, 0, MOST);
    put_number(medium, 0, second_selector);
    put_header(medium, 40, UINT64_MAX - 5, UINT64_MAX - 3, 28);
    log = bbl_open(medium, 100).handle;
    ANSWERS(bbl_append(medium, 100, &log, (const uint8_t *)"abcd", 4), BBL_NO_ROOM, 3, 0);
    ANSWERS(bbl_append(medium, 100, &log, (const uint8_t *)"abc", 3), BBL_OK, UINT64_MAX - 3, 0);
    ANSWERS(bbl_append(medium, 100, &log, (const uint8_t *)"a", 1), BBL_NO_ROOM, 0, 0);
    CHECK(same(bbl_open(medium, 100).handle, handle_of(0, UINT64_MAX - 5, UINT64_MAX, 28)));
}

static void reasons(void)
{
    static const uint64_t codes[] = {0, 1, 2, 3, 4, 5, 6, 7, 8, 9, 10, 11, 12, 100, 101, 102, 13, 99, UINT64_MAX};
    size_t i, j;
    for (i = 0; i < sizeof codes / sizeof *codes; i++) {
        CHECK(bbl_reason(codes[i])[0] != 0);
        for (j = 0; j < i; j++) {
            CHECK(i > 16 || strcmp(bbl_reason(codes[i]), bbl_reason(codes[j])) != 0);
        }
    }
    CHECK(strcmp(bbl_reason(13), bbl_reason(UINT64_MAX)) == 0);
}

int main(void)
{
    checksum();
    the_run();
    opening();
    refusals_write_nothing();
    no_bytes();
    all_hooks();
    addresses();
    steps();
    any_plan();
    sequences();
    the_last_position();
    reasons();
    printf("%u passed, %u failed\n", passed, failed);
    return failed != 0;
}
