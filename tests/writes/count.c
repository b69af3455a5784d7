// Counts what operations cost, over long runs of records of 64 bytes: the puts, the bytes, the aligned pieces of eight bytes that the medium
// takes, and the flushes. Each plan is made and carried out through the boundary, so what is counted is what the caller of the archive sees.
// Each operation of a kind must cost exactly what the table says.
#include <stdint.h>
#include <stdio.h>
#include <stdlib.h>
#include <string.h>

struct kept { uint64_t live, head, tail, size; };
struct reply { uint64_t code, number, other, steps; struct kept handle; };
struct stepped { uint64_t code, at, length; };

extern struct reply bbl_open(const uint8_t *medium, size_t length);
extern struct reply bbl_plan_setup(const uint8_t *medium, size_t length, uint64_t *plan, size_t words);
extern struct reply bbl_plan_append_of(const uint8_t *medium, size_t length, uint64_t live, uint64_t head, uint64_t tail, uint64_t size,
                                       uint64_t bytes, uint64_t *plan, size_t words);
extern struct reply bbl_plan_advance(const uint8_t *medium, size_t length, struct kept handle, uint64_t position, uint64_t *plan, size_t words);
extern struct stepped bbl_step(uint8_t *medium, size_t length, const uint64_t *plan, size_t words, const uint8_t *bytes, size_t count, uint64_t i);

enum { RECORD = 64, RING = 72, WORDS = 54, OK = 0, NO_ROOM = 8 };

struct cost { unsigned puts, bytes, pieces, flushes; };

// a kind of operation: what it cost when a plan wrote two pieces of data, the whole header and the selector, and what it must cost now
struct kind { const char *name; struct cost before, now; unsigned long seen, wrong; struct cost odd; };

enum { ROW_PLAIN, ROW_WRAP, BETWEEN_PLAIN, BETWEEN_WRAP, ADVANCE_ROW, ADVANCE_BETWEEN, FIRST, RUBBISH, NOTHING, KINDS };

static struct kind kinds[KINDS] = {
    [ROW_PLAIN] = {"append after an append", {4, 104, 13, 2}, {4, 88, 11, 2}},
    [ROW_WRAP] = {"the same, past the ring's end", {4, 104, 13, 2}, {5, 88, 11, 2}},
    [BETWEEN_PLAIN] = {"append after an advance", {4, 104, 13, 2}, {5, 96, 12, 2}},
    [BETWEEN_WRAP] = {"the same, past the ring's end", {4, 104, 13, 2}, {6, 96, 12, 2}},
    [ADVANCE_ROW] = {"advance after an advance", {2, 40, 5, 2}, {3, 24, 3, 2}},
    [ADVANCE_BETWEEN] = {"advance after an append", {2, 40, 5, 2}, {4, 32, 4, 2}},
    [FIRST] = {"first append on zeros", {4, 104, 13, 2}, {5, 96, 12, 2}},
    [RUBBISH] = {"append over rubbish", {4, 104, 13, 2}, {6, 104, 13, 2}},
    [NOTHING] = {"empty append after another", {4, 40, 5, 2}, {1, 8, 1, 2}},
};

struct log {
    uint8_t *medium;
    size_t length;
    struct kept handle;
    unsigned long done;   // operations since set-up
    int advanced;         // whether the last one was an advance
};

static unsigned long passed, failed;

static void check(int right, const char *what)
{
    if (right) {
        passed++;
    } else {
        failed++;
        printf("FAILED: %s\n", what);
    }
}

static void print_cost(struct cost c)
{
    printf("%4u %5u %6u %7u", c.puts, c.bytes, c.pieces, c.flushes);
}

static void count(int kind, struct cost c)
{
    struct kind *k = &kinds[kind];
    k->seen++;
    if (memcmp(&c, &k->now, sizeof c) != 0) {
        k->wrong++;
        k->odd = c;
    }
}

// carries out a plan, and counts
static struct cost carry_out(struct log *l, const uint64_t *plan, struct reply r, const uint8_t *bytes, size_t n)
{
    struct cost c = {0, 0, 0, 0};
    for (uint64_t i = 0; i < r.steps; i++) {
        struct stepped s = bbl_step(l->medium, l->length, plan, WORDS, bytes, n, i);
        if (s.code == 0) {
            c.puts++;
            c.bytes += s.length;
            if (s.length)
                c.pieces += (s.at + s.length - 1) / 8 - s.at / 8 + 1;
        } else if (s.code == 1) {
            c.flushes++;
        } else {
            printf("a step was refused\n");
            exit(1);
        }
    }
    l->handle = r.handle;
    l->done++;
    return c;
}

static struct log new_log(size_t length)
{
    struct log l = {calloc(length, 1), length, {0, 0, 0, 0}, 0, 0};
    uint64_t plan[WORDS];
    struct reply r = bbl_plan_setup(l.medium, length, plan, WORDS);
    if (!l.medium || r.code != OK)
        exit(1);
    carry_out(&l, plan, r, 0, 0);
    l.done = 0;
    return l;
}

// appends a record; answers 0 if there is no room. `as` is its kind, or KINDS: then it follows from what was done before.
static int append(struct log *l, size_t n, int as)
{
    static uint8_t record[RECORD];
    uint64_t plan[WORDS];
    uint64_t place = l->handle.tail % l->handle.size;
    int wraps = place + n > l->handle.size;
    struct reply r = bbl_plan_append_of(l->medium, l->length, l->handle.live, l->handle.head, l->handle.tail, l->handle.size, n, plan, WORDS);
    if (r.code == NO_ROOM)
        return 0;
    if (r.code != OK)
        exit(1);
    for (size_t i = 0; i < n; i++)
        record[i] = (uint8_t)(l->handle.tail + i);
    int known = l->done >= 2;
    struct cost c = carry_out(l, plan, r, record, n);
    if (as != KINDS)
        count(as, c);
    else if (known)
        count(l->advanced ? (wraps ? BETWEEN_WRAP : BETWEEN_PLAIN) : (wraps ? ROW_WRAP : ROW_PLAIN), c);
    l->advanced = 0;
    return 1;
}

static void advance(struct log *l, uint64_t position)
{
    uint64_t plan[WORDS];
    struct reply r = bbl_plan_advance(l->medium, l->length, l->handle, position, plan, WORDS);
    if (r.code != OK)
        exit(1);
    int known = l->done >= 2;
    struct cost c = carry_out(l, plan, r, 0, 0);
    if (known)
        count(l->advanced ? ADVANCE_ROW : ADVANCE_BETWEEN, c);
    l->advanced = 1;
}

// the handle is what opening finds
static void done(struct log *l, const char *what)
{
    struct reply r = bbl_open(l->medium, l->length);
    check(r.code == OK && memcmp(&r.handle, &l->handle, sizeof r.handle) == 0, what);
    free(l->medium);
}

int main(void)
{
    struct log l = new_log(RING + 2000000);
    append(&l, RECORD, FIRST);
    for (int i = 1; i < 20000; i++)
        append(&l, RECORD, KINDS);
    done(&l, "20,000 appends in a row: the log stands");

    l = new_log(4096);
    for (int i = 0; i < 20000; i++)
        if (!append(&l, RECORD, KINDS)) {
            advance(&l, l.handle.head + 10 * RECORD);
            advance(&l, l.handle.tail);
        }
    done(&l, "20,000 appends, the ring emptied whenever it is full: the log stands");

    l = new_log(4096);
    for (int i = 0; i < 20000; i++) {
        append(&l, RECORD, KINDS);
        if (i >= 10)
            advance(&l, l.handle.head + RECORD);
    }
    done(&l, "20,000 appends with an advance after each: the log stands");

    l = new_log(4096);
    append(&l, RECORD, KINDS);
    memset(l.medium + (l.handle.live ? 8 : 40), 0xff, 32);
    append(&l, RECORD, RUBBISH);
    done(&l, "the other header held rubbish: the log stands");

    l = new_log(4096);
    append(&l, 0, KINDS);
    append(&l, 0, NOTHING);
    done(&l, "empty appends: the log stands");

    printf("%-31s %7s   %-27s%s\n", "", "", "before", "now");
    printf("%-31s %7s   %-27s%s\n", "each", "counted", "puts bytes pieces flushes", "puts bytes pieces flushes");
    for (int i = 0; i < KINDS; i++) {
        struct kind *k = &kinds[i];
        printf("%-31s %7lu   ", k->name, k->seen);
        print_cost(k->before);
        printf("  ");
        print_cost(k->now);
        printf("\n");
        if (k->wrong) {
            printf("but %lu cost something else, as      ", k->wrong);
            print_cost(k->odd);
            printf("\n");
        }
        check(k->seen > 0 && k->wrong == 0, k->name);
    }
    printf("%lu passed, %lu failed\n", passed, failed);
    return failed != 0;
}
